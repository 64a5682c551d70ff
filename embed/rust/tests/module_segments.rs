//! The segments of a module of each kind, by hand.

use bobbinazure::{DataKind, ElementKind, HeapType, Items, module_segments};

/// Five functions; a table and a memory; a global that begins as a reference to function 3; an
/// export of function 4; function 2 starts. Then four element segments and two data segments.
const MODULE: &[u8] = b"\0asm\x01\0\0\0\
    \x01\x04\x01\x60\0\0\
    \x03\x06\x05\0\0\0\0\0\
    \x04\x04\x01\x70\0\x0A\
    \x05\x03\x01\0\x01\
    \x06\x06\x01\x70\0\xD2\x03\x0B\
    \x07\x05\x01\x01f\0\x04\
    \x08\x01\x02\
    \x09\x1D\x04\
    \0\x41\x01\x0B\x01\0\
    \x01\0\x02\x01\0\
    \x07\x63\0\x01\xD0\0\x0B\
    \x06\0\x41\x02\x0B\x70\x01\xD2\x01\x0B\
    \x0A\x10\x05\x02\0\x0B\x02\0\x0B\x02\0\x0B\x02\0\x0B\x02\0\x0B\
    \x0B\x0B\x02\
    \0\x41\x08\x0B\x02ab\
    \x01\x01c";

fn written(items: Items<'_>) -> Vec<String> {
    match items {
        Items::Functions(functions) => functions.iter().map(u32::to_string).collect(),
        Items::Expressions(all) => all.iter().map(|one| one.to_string()).collect(),
    }
}

#[test]
fn element_segments_stand_in_order() {
    let segments = module_segments(MODULE).unwrap().unwrap();
    let rows: Vec<_> = segments.elements().collect();
    let kinds: Vec<_> = rows
        .iter()
        .map(|row| match row.kind {
            ElementKind::Passive => "passive".to_owned(),
            ElementKind::Active { table_index, offset_expr } => format!("{table_index} {offset_expr}"),
            ElementKind::Declared => "declared".to_owned(),
        })
        .collect();
    assert_eq!(kinds, ["0 i32.const 1", "passive", "declared", "0 i32.const 2"]);
    assert_eq!(rows[0].ty.to_string(), "funcref");
    assert_eq!((rows[2].ty.nullable, rows[2].ty.heap_type), (true, HeapType::Declared(0)));
    let items: Vec<_> = rows.iter().map(|row| written(row.items)).collect();
    assert_eq!(items, [vec!["0"], vec!["1", "0"], vec!["ref.null (declared 0)"], vec!["ref.func 1"]]);
}

#[test]
fn data_segments_have_their_bytes() {
    let segments = module_segments(MODULE).unwrap().unwrap();
    let rows: Vec<_> = segments.data().collect();
    assert_eq!(rows.len(), 2);
    assert!(matches!(rows[0].kind, DataKind::Active { memory_index: 0, offset_expr } if offset_expr.to_string() == "i32.const 8"));
    assert_eq!((rows[0].data, rows[1].data), (&b"ab"[..], &b"c"[..]));
    assert_eq!(rows[1].kind, DataKind::Passive);
}

#[test]
fn the_start_function_is_no_reference() {
    assert_eq!(module_segments(MODULE).unwrap().unwrap().references(), [0, 1, 3, 4]);
    assert!(module_segments(&MODULE[..4]).unwrap().is_none());
}
