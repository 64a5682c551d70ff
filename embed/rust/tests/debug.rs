//! What the option `native_debug` keeps.

use bobbinazure::{Options, Plan};

/// A section, or a part of the names: its number, the size of its contents, and those.
fn sized(number: u8, contents: &[u8]) -> Vec<u8> {
    [&[number, contents.len() as u8], contents].concat()
}

/// An imported function and two defined ones, with names of locals of all three.
fn module() -> Vec<u8> {
    let names = [b"\x04name".to_vec(), sized(2, b"\x03\x00\x01\x00\x01x\x01\x01\x02\x01z\x02\x02\x00\x01a\x01\x01b")].concat();
    [
        b"\0asm\x01\0\0\0".to_vec(),
        sized(1, b"\x03\x60\x02\x7F\x7E\x01\x7F\x60\x00\x00\x5F\x00"), // (func (param i32 i64) (result i32)) (func) (struct)
        sized(2, b"\x01\x01m\x01f\x00\x00"),                           // (import "m" "f" (func (type 0)))
        sized(3, b"\x02\x01\x00"),                                     // functions of type 1 and of type 0
        sized(10, b"\x02\x07\x02\x01\x7F\x02\x63\x02\x0B\x04\x00\x20\x00\x0B"), // (local i32 (ref null 2) (ref null 2)), and none
        sized(0, &names),
    ]
    .concat()
}

#[test]
fn locals_have_names() {
    let bytes = module();
    let plan = Plan::new(&bytes, &Options { native_debug: true, ..Options::default() }).expect("it is planned");
    assert_eq!(plan.locals_names().collect::<Vec<_>>(), [(0, 0, "x"), (1, 2, "z"), (2, 0, "a"), (2, 1, "b")]);
    assert_eq!(plan.locals_names_of(2).collect::<Vec<_>>(), [(0, "a"), (1, "b")]);
    assert_eq!(plan.locals_names_of(0).collect::<Vec<_>>(), [(0, "x")]);
    assert_eq!(plan.locals_names_of(3).len(), 0);
}

#[test]
fn functions_have_metadata() {
    let bytes = module();
    let plan = Plan::new(&bytes, &Options { native_debug: true, ..Options::default() }).expect("it is planned");
    let told = plan.function_metadata().map(|function| {
        let params: Vec<_> = function.params.iter().map(|param| param.to_string()).collect();
        let locals: Vec<_> = function.locals().map(|(count, ty)| format!("{count} {ty}")).collect();
        (params, locals)
    });
    let reference = format!("2 (ref null struct (module {}))", plan.declared_types()[2]);
    assert_eq!(told.collect::<Vec<_>>(), [(vec![], vec!["1 i32".into(), reference]), (vec!["i32".into(), "i64".into()], vec![])]);
    assert_eq!(plan.imported_func_count(), 1);
}

#[test]
fn nothing_is_kept_without_the_option() {
    let bytes = module();
    let plan = Plan::new(&bytes, &Options::default()).expect("it is planned");
    assert_eq!((plan.locals_names().len(), plan.function_metadata().len(), plan.imported_func_count()), (0, 0, 1));
}
