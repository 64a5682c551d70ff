//! What the text does not tell: bodies, items of element segments, branch hints, debug information,
//! and the structs of a target.

use bobbinazure::{Items, Options, Plan, numbers};

/// Two functions, a table, four element segments, a branch hint and a section of debug information.
const MODULE: [u8; 118] = [
    0x00, 0x61, 0x73, 0x6D, 0x01, 0x00, 0x00, 0x00, // the header
    0x01, 0x06, 0x02, 0x60, 0x00, 0x00, 0x5F, 0x00, // (type (func)) (type (struct))
    0x03, 0x03, 0x02, 0x00, 0x00, // two functions
    0x04, 0x04, 0x01, 0x70, 0x00, 0x05, // (table 5 funcref)
    0x09, 0x19, 0x04, // four element segments
    0x00, 0x41, 0x00, 0x0B, 0x02, 0x01, 0x00, // (elem (i32.const 0) func 1 0)
    0x05, 0x70, 0x02, 0xD0, 0x70, 0x0B, 0xD2, 0x01, 0x0B, // (elem funcref (ref.null func) (ref.func 1))
    0x03, 0x00, 0x01, 0x00, // (elem declare func 0)
    0x01, 0x00, 0x01, 0x00, // (elem func 0)
    0x00, 0x20, 0x19, b'm', b'e', b't', b'a', b'd', b'a', b't', b'a', b'.', b'c', b'o', b'd', b'e', b'.', // a custom section
    b'b', b'r', b'a', b'n', b'c', b'h', b'_', b'h', b'i', b'n', b't', 0x01, 0x01, 0x01, 0x05, 0x01, 0x01, // of function 1, at byte 5: likely
    0x0A, 0x0C, 0x02, // two bodies, from byte 90 on
    0x02, 0x00, 0x0B, // no locals
    0x07, 0x02, 0x03, 0x7F, 0x02, 0x63, 0x01, 0x0B, // (local i32 i32 i32 (ref null 1) (ref null 1))
    0x00, 0x0E, 0x0B, b'.', b'd', b'e', b'b', b'u', b'g', b'_', b'i', b'n', b'f', b'o', 0x00, 0x00, // a custom section
];

fn plan(options: &Options) -> Plan<'static> {
    Plan::new(&MODULE, options).expect("it is planned")
}

#[test]
fn bodies_stand_in_the_module() {
    let plan = plan(&Options::default());
    assert_eq!(plan.code_section_offset(), 90);
    let bodies: Vec<_> = plan.bodies().collect();
    assert_eq!(bodies.iter().map(|body| (body.range.clone(), body.operators, body.code)).collect::<Vec<_>>(), [
        (92..94, 93, &[0x0B][..]),
        (95..102, 101, &[0x0B][..])
    ]);
    assert!(bodies.iter().all(|body| *body.bytes == MODULE[body.range.clone()] && body.bytes.ends_with(body.code)));
    assert_eq!(bodies[0].locals().len(), 0);
    let locals: Vec<_> = bodies[1].locals().map(|(count, ty)| format!("{count} {ty}")).collect();
    assert_eq!(locals, ["3 i32".to_string(), format!("2 (ref null struct (module {}))", plan.declared_types()[1])]);
}

fn told(items: Items) -> Vec<String> {
    match items {
        Items::Functions(functions) => functions.iter().map(|function| format!("func {function}")).collect(),
        Items::Expressions(expressions) => expressions.iter().map(|expression| expression.to_string()).collect(),
    }
}

#[test]
fn element_segments_have_their_items() {
    let plan = plan(&Options::default());
    let kept: Vec<_> = plan.element_segments().map(|segment| (segment.table, segment.offset.to_string(), told(segment.items))).collect();
    assert_eq!(kept, [(0, "i32.const 0".into(), vec!["func 1".into(), "func 0".into()])]);
    let passive: Vec<_> = plan.passive_elements().map(|segment| told(segment.items)).collect();
    assert_eq!(passive, [vec!["ref.null func".to_string(), "ref.func 1".into()], vec!["func 0".into()]]);
    assert_eq!(plan.passive_elem_map().collect::<Vec<_>>(), [(1, 0), (3, 1)]);
    let by_segment: Vec<_> = (0..5).map(|segment| plan.passive_elements_of(segment).map(|found| told(found.items))).collect();
    assert_eq!(by_segment, [None, Some(passive[0].clone()), None, Some(passive[1].clone()), None]);
    assert!((0..5).all(|segment| plan.passive_data_of(segment).is_none()));
}

#[test]
fn hints_and_debug_information() {
    let read = plan(&Options { branch_hints: true, ..Options::default() });
    assert_eq!(read.branch_hints().iter().map(|hint| (hint.function, hint.offset, hint.taken)).collect::<Vec<_>>(), [(1, 5, 1)]);
    assert_eq!(read.branch_hints_of(1), read.branch_hints());
    assert!(read.branch_hints_of(0).is_empty() && read.branch_hints_of(2).is_empty());
    assert!(plan(&Options::default()).branch_hints().is_empty());
    assert!(read.has_unparsed_debuginfo());
    assert!(!Plan::new(&MODULE[..102], &Options::default()).expect("it is planned").has_unparsed_debuginfo());
    assert_eq!(read.num_escaped_funcs(), 2);
}

#[test]
fn structs_are_those_of_the_target() {
    for (pointer, sizes) in [(8, [24, 24, 24, 24, 24, 16, 16, 16, 4, 32, 48, 48]), (4, [12, 12, 12, 12, 16, 8, 8, 16, 4, 16, 32, 24])] {
        let plan = plan(&Options { pointer, ..Options::default() });
        let of = plan.structs();
        assert_eq!(plan.pointer_size(), u32::from(pointer));
        assert_eq!([of.function_import.size, of.table_import.size, of.memory_import.size, of.tag_import.size, of.global_import.size], sizes[..5]);
        assert_eq!([of.memory_definition.size, of.table_definition.size, of.global_definition.size, of.tag_definition.size], sizes[5..9]);
        assert_eq!([of.func_ref.size, of.store_context.size, of.static_context.size], sizes[9..]);
        assert_eq!([of.func_ref.array_call, of.func_ref.wasm_call, of.func_ref.vmctx], [0, u32::from(pointer), 3 * u32::from(pointer)]);
        assert_eq!([of.func_ref.vmctx_size, of.func_ref.type_index_size, of.static_context.magic_size], [u32::from(pointer), 4, 4]);
        assert_eq!([of.global_import.kind_size, of.global_definition.storage_size, of.store_context.epoch_deadline_size], [8, 16, 8]);
        assert_eq!(of.store_context.gc_heap_size, of.memory_definition.size);
        let escaping = plan.regions().find(|region| region.name == "module functions").expect("it is there");
        assert_eq!(escaping.size, 2 * of.func_ref.size);
        assert_eq!(plan.startup_func_ref().is_some(), plan.startup() != bobbinazure::ModuleStartup::None);
    }
    assert_eq!((numbers::HEAP_DECLARED, numbers::OF_SECTION), (19, 4));
}

#[test]
fn memories_have_their_sizes_in_bytes() {
    let module = b"\0asm\x01\0\0\0\x05\x06\x02\x01\x01\x03\x04\x02"; // (memory 1 3) (memory i64 2)
    let plan = Plan::new(module, &Options::default()).expect("it is planned");
    for memory in plan.memories() {
        assert_eq!(memory.minimum_byte_size(), Some(memory.minimum_bytes));
        assert_eq!(memory.maximum_byte_size(), Some(memory.maximum_bytes));
    }
    let bytes: Vec<_> = plan.memories().iter().map(|memory| (memory.minimum_bytes, memory.maximum_bytes)).collect();
    assert_eq!(bytes, [(1 << 16, 3 << 16), (2 << 16, 0u64.wrapping_sub(1 << 16))]);
}
