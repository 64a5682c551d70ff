//! The calls on the linked program, a refusal, and wrong options.

use bobbinazure::{EntityIndex, Error, ModuleStartup, Options, Plan, Reason, SegmentOffset, plan_and_text, text};

const LINKED: &[u8] = include_bytes!("../../../examples/linked.wasm");
const OVERLAP: &[u8] = include_bytes!("../../../examples/overlap.wasm");

fn images() -> Options {
    Options { cow: true, lazy_tables: true, ..Options::default() }
}

#[test]
fn tables_of_the_linked_program() {
    let plan = Plan::new(LINKED, &images()).expect("it is planned");
    assert_eq!(plan.declared_types(), [0, 1]);
    assert_eq!(plan.types().len(), 3);
    assert_eq!(plan.ty(1).expect("it is there").to_string(), "(func (param i32 i32) (result i32))");
    assert!(plan.ty(3).is_none());
    assert_eq!((plan.entities().functions, plan.entities().imported_functions), (2, 0));
    assert_eq!(plan.functions().map(|function| (function.index, function.imported)).collect::<Vec<_>>(), [(0, false), (1, false)]);
    assert_eq!(plan.data_align(), Some(4096));
    let image = plan.memory_images().next().expect("it is there");
    assert_eq!((image.memory, image.offset, image.bytes.len()), (0, 1048576, 4096));
    assert!(plan.bytes(0).starts_with(b"hello"));
    assert_eq!(plan.table_images().collect::<Vec<_>>(), [[u32::MAX, 1]]);
    assert_eq!(plan.startup(), ModuleStartup::IfMemoriesNeedInit(2));
    assert_eq!(plan.exports().map(|export| export.name).collect::<Vec<_>>(), ["memory", "_start"]);
    assert_eq!(plan.export("_start"), Some(EntityIndex::Function(0)));
    assert_eq!(plan.export("start"), None);
    assert_eq!(plan.func_names().collect::<Vec<_>>(), [(0, "_start"), (1, "add")]);
    assert_eq!(plan.offsets().size, 220);
    assert_eq!(plan.regions().map(|region| region.size).sum::<u32>(), 220);
}

#[test]
fn both_of_one_plan() {
    let (plan, whole) = plan_and_text(LINKED, &images()).expect("it is planned");
    assert_eq!(whole, text(LINKED, &images()).expect("it is planned"));
    assert!(whole.ends_with(&format!("context {}\n", plan.offsets().size)));
}

#[test]
fn later_segments_win() {
    let plan = Plan::new(OVERLAP, &Options { cow: true, ..Options::default() }).expect("it is planned");
    assert_eq!(plan.memory_images().next().expect("it is there").bytes[16..19], [1, 9, 3]);
    let left = Plan::new(OVERLAP, &Options::default()).expect("it is planned");
    assert_eq!(left.memory_images().len(), 0);
    let offsets = left.data_segments().map(|segment| match segment.offset {
        SegmentOffset::Static(at) => format!("static {at}"),
        SegmentOffset::Expr(expression) => expression.to_string(),
    });
    assert_eq!(offsets.collect::<Vec<_>>(), ["i32.const 16", "i32.const 17"]);
    assert_eq!(left.data_segments().nth(1).expect("it is there").bytes, [9]);
}

#[test]
fn a_refusal_displays_its_line() {
    // A memory whose least size passes its greatest.
    let bytes = [0, b'a', b's', b'm', 1, 0, 0, 0, 5, 4, 1, 1, 9, 3];
    let Err(error) = Plan::new(&bytes, &Options::default()) else { panic!("it is refused") };
    assert_eq!(error, Error::Refused { reason: Reason::Invalid(4), line: "refused invalid L4" });
    assert_eq!(error.to_string(), "refused invalid L4");
    assert_eq!(text(&bytes, &Options::default()), Err(error));
    assert_eq!(Plan::new(&[], &Options::default()).err().map(|e| e.to_string()).as_deref(), Some("refused malformed"));
}

#[test]
fn wrong_options() {
    for options in [
        Options { pointer: 5, ..Options::default() },
        Options { page_size: 3, ..Options::default() },
        Options { page_size: 0, ..Options::default() },
        Options { collector: 2, ..Options::default() },
    ] {
        assert_eq!(Plan::new(LINKED, &options).err(), Some(Error::WrongOptions));
        assert_eq!(text(LINKED, &options), Err(Error::WrongOptions));
    }
}

#[test]
fn threads_do_not_meet() {
    let wanted = text(LINKED, &images()).expect("it is planned");
    std::thread::scope(|scope| {
        for _ in 0..4 {
            scope.spawn(|| (0..50).for_each(|_| assert_eq!(text(LINKED, &images()).expect("it is planned"), wanted)));
        }
    });
}
