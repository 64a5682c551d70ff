//! Entities of each kind, in contexts that are read as compiled code would read them.

mod common;

use common::spelling::{constant, data, export, import, limits, module, section, sized, unsigned, vector};
use engine::{Config, Engine, InstanceId, Store, Template};

fn lone<'t>(store: &mut Store<'t>, template: &'t Template<'t>) -> InstanceId {
    store.instantiate(&template.link(&[]).expect("no imports"), &[]).expect("an instance")
}

fn global(ty: &[u8], expression: &[u8]) -> Vec<u8> {
    [ty, &[0], expression, &[0x0B]].concat()
}

#[test]
fn globals_of_each_type() {
    let engine = Engine::new(Config::default());
    let vector_bits = [&[0xFD, 12][..], &(1..=16).collect::<Vec<u8>>()].concat();
    let sum = [&[0x23, 0, 0x41, 5, 0x6C, 0x41][..], &[0x7F], &[0x6A]].concat(); // global 0 * 5 + -1
    let bytes = module(&[
        section(1, &[vec![0x60, 0, 0]]),
        section(3, &[unsigned(0)]),
        section(
            6,
            &[
                global(&[0x7F], &[0x41, 0x7E]),
                global(&[0x7E], &[0x42, 0x7F]),
                global(&[0x7D], &[0x43, 0, 0, 0xC0, 0x7F]),
                global(&[0x7C], &[0x44, 0, 0, 0, 0, 0, 0, 0xF0, 0x3F]),
                global(&[0x7B], &vector_bits),
                global(&[0x7F], &sum),
                global(&[0x70], &[0xD2, 0]),
                global(&[0x70], &[0xD0, 0x70]),
                global(&[0x64, 0x6C], &[0x41, 0x7D, 0xFB, 28]),
            ],
        ),
        section(10, &[vec![2, 0, 0x0B]]),
    ]);
    let template = Template::new(&engine, &bytes).expect("a template");
    let mut store = Store::new();
    let id = lone(&mut store, &template);
    let bits = |global| store.global(id, global).expect("a global");
    assert_eq!([bits(0), bits(1), bits(2)], [0xFFFF_FFFE, 0xFFFF_FFFF_FFFF_FFFF, 0x7FC0_0000]);
    assert_eq!([bits(3), bits(4)], [1f64.to_bits().into(), 0x100f_0e0d_0c0b_0a09_0807_0605_0403_0201]);
    assert_eq!(bits(5), u128::from((-11i32) as u32));
    assert_eq!(store.function(bits(6) as u64), Some((id, 0)));
    assert_eq!(bits(7), 0);
    assert_eq!(bits(8), u128::from(((-3i32) << 1 | 1) as u32));
    assert_eq!(store.global(id, 9), None);
}

/// Functions 0 and 1 of two types, a table whose cells begin as function 1, a passive element
/// segment and passive data.
fn with_tables() -> Vec<u8> {
    module(&[
        section(1, &[vec![0x60, 0, 0], vec![0x60, 1, 0x7F, 0]]),
        section(3, &[unsigned(0), unsigned(1)]),
        section(4, &[[&[0x40, 0, 0x70][..], &limits(3, None), &[0xD2, 1, 0x0B]].concat()]),
        section(5, &[limits(1, None)]),
        section(7, &[export("t", 1, 0), export("f", 0, 0), export("g", 0, 1)]),
        section(9, &[vec![5, 0x70, 3, 0xD2, 0, 0x0B, 0xD0, 0x70, 0x0B, 0xD2, 1, 0x0B]]),
        vec![12, 1, 2],
        section(10, &[vec![2, 0, 0x0B], vec![2, 0, 0x0B]]),
        section(11, &[[vec![1], sized(b"kept")].concat(), data(&constant(3), b"mapped")]),
    ])
}

#[test]
fn first_cells_and_passive_segments() {
    let engine = Engine::new(Config::default());
    let bytes = with_tables();
    let template = Template::new(&engine, &bytes).expect("a template");
    let mut store = Store::new();
    let id = lone(&mut store, &template);
    let functions =
        |cells: &[u64]| cells.iter().map(|cell| store.function(*cell).map(|one| one.1)).collect::<Vec<_>>();
    assert_eq!(functions(store.table(id, 0).expect("a table")), [Some(1); 3]);
    assert_eq!(functions(store.passive_elements(id, 0).expect("a segment")), [Some(0), None, Some(1)]);
    assert_eq!(store.passive_elements(id, 1), None);
    assert!(store.memory(id, 0).expect("a memory").starts_with(b"\0\0\0mapped\0"));
    assert_eq!(store.passive_data(id, 0), Some(&b"kept"[..]));
    assert_eq!(store.passive_data(id, 1), None, "an active segment is dropped");
}

#[test]
fn what_is_imported_and_exported_again() {
    let engine = Engine::new(Config::default());
    let bytes = with_tables();
    // The types in the other order, and all of the first module exported again.
    let middle = module(&[
        section(1, &[vec![0x60, 1, 0x7F, 0], vec![0x60, 0, 0]]),
        section(
            2,
            &[import("a", "t", 1, &[0x70, 0, 3]), import("a", "f", 0, &[1]), import("a", "g", 0, &[0])],
        ),
        section(7, &[export("x", 0, 1), export("y", 0, 0), export("z", 1, 0)]),
    ]);
    let last = module(&[
        section(1, &[vec![0x60, 0, 0]]),
        section(2, &[import("b", "z", 1, &[0x70, 0, 1]), import("b", "y", 0, &[0])]),
        section(9, &[[vec![0], constant(2), vector(&[unsigned(0)])].concat()]),
    ]);
    let [first, middle, last] =
        [&bytes, &middle, &last].map(|bytes| Template::new(&engine, bytes).expect("a template"));
    let mut store = Store::new();
    let one = lone(&mut store, &first);
    let two = store
        .instantiate(&middle.link(&[("a", &first)]).expect("it is linked"), &[one])
        .expect("an instance");
    let three =
        store.instantiate(&last.link(&[("b", &middle)]).expect("it is linked"), &[two]).expect("an instance");
    let cells = store.table(one, 0).expect("a table");
    assert_eq!((store.table(two, 0), store.table(three, 0)), (Some(cells), Some(cells)));
    // A function that passed through a module is that of the first, though another context has the reference.
    assert_eq!(store.function(cells[2]), Some((one, 0)));
    assert_ne!(Some(cells[2]), store.func_ref(one, 0));
    let [of_first, of_last] =
        [store.func_ref(one, 0), Some(cells[2])].map(|cell| store.function_type(cell.expect("one")));
    assert!(of_first == of_last && of_first == middle.type_index(1) && of_first != middle.type_index(0));
}

#[test]
fn memories_of_other_kinds() {
    let engine = Engine::new(Config::default());
    // A memory in pages of a byte, one of addresses of 64 bits, and an empty one.
    let bytes = module(&[
        section(5, &[vec![8, 5, 0], vec![4, 2], limits(0, Some(0))]),
        section(11, &[[vec![2, 1, 0x42, 9, 0x0B], sized(b"wide")].concat()]),
    ]);
    let template = Template::new(&engine, &bytes).expect("a template");
    let mut store = Store::new();
    let id = lone(&mut store, &template);
    assert_eq!(store.memory(id, 0), Some(&[0; 5][..]));
    let wide = store.memory(id, 1).expect("a memory");
    assert!(wide.len() == 131072 && wide[9..].starts_with(b"wide\0"));
    assert_eq!(store.memory(id, 2), Some(&[][..]));
    assert_eq!(store.memory(id, 3), None);
}

#[test]
fn a_tag_has_its_type() {
    let engine = Engine::new(Config::default());
    let exporter = module(&[
        section(1, &[vec![0x60, 0, 0], vec![0x60, 1, 0x7F, 0]]),
        section(13, &[vec![0, 1]]),
        section(7, &[export("tag", 4, 0)]),
    ]);
    let importer =
        module(&[section(1, &[vec![0x60, 1, 0x7F, 0]]), section(2, &[import("a", "tag", 4, &[0, 0])])]);
    let [first, second] =
        [&exporter, &importer].map(|bytes| Template::new(&engine, bytes).expect("a template"));
    let mut store = Store::new();
    let one = lone(&mut store, &first);
    let two = store
        .instantiate(&second.link(&[("a", &first)]).expect("it is linked"), &[one])
        .expect("an instance");
    assert_eq!(store.tag_type(one, 0), first.type_index(1));
    assert_eq!(store.tag_type(two, 0), first.type_index(1));
    assert_eq!(second.type_index(0), first.type_index(1));
}
