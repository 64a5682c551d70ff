//! A trap in each phase, what it leaves, and what is refused before.

mod common;

use common::spelling::{constant, data, elements, export, import, limits, module, section, unsigned};
use engine::{Config, Engine, Error, Images, InstanceId, Limits, Phase, Store, Template};

/// A table of four functions, a memory of a page, and a global that holds an offset.
fn host(offset: i64) -> Vec<u8> {
    module(&[
        section(4, &[[vec![0x70], limits(4, None)].concat()]),
        section(5, &[limits(1, None)]),
        section(6, &[[vec![0x7F, 0], constant(offset)].concat()]),
        section(7, &[export("t", 1, 0), export("m", 2, 0), export("g", 3, 0)]),
    ])
}

/// A function that it puts into the host's table, at cell 1 and at an offset, and a memory that
/// begins as an image.
fn late_element(offset: i64) -> Vec<u8> {
    module(&[
        section(1, &[vec![0x60, 0, 0]]),
        section(2, &[import("e", "t", 1, &[0x70, 0, 1])]),
        section(3, &[unsigned(0)]),
        section(5, &[limits(1, None)]),
        section(9, &[elements(&constant(1), &[0]), elements(&constant(offset), &[0])]),
        section(10, &[vec![2, 0, 0x0B]]),
        section(11, &[data(&constant(8), b"seen")]),
    ])
}

/// It writes the host's memory at 8, and at the offset that the host's global holds.
fn late_data() -> Vec<u8> {
    let from_global = [0x23, 0, 0x0B];
    module(&[
        section(2, &[import("e", "m", 2, &[0, 1]), import("e", "g", 3, &[0x7F, 0])]),
        section(11, &[data(&constant(8), b"first"), data(&from_global, b"second")]),
    ])
}

fn made<'t>(store: &mut Store<'t>, host: &'t Template<'t>) -> InstanceId {
    store.instantiate(&host.link(&[]).expect("no imports"), &[]).expect("a host")
}

/// The host of a module, and the outcome of its instantiation.
fn outcome(
    images: Images,
    host: &[u8],
    bytes: &[u8],
    look: impl Fn(&Store<'_>, InstanceId),
) -> Result<(), Error> {
    let engine = Engine::new(Config { images, ..Config::default() });
    let (host, template) = (Template::new(&engine, host)?, Template::new(&engine, bytes)?);
    let linked = template.link(&[("e", &host)])?;
    let mut store = Store::new();
    let host = made(&mut store, &host);
    let done = store.instantiate(&linked, &[host]).map(|_| ());
    look(&store, host);
    done
}

#[test]
fn an_element_segment_that_does_not_fit() {
    for images in [Images::Map, Images::Copy] {
        let trap = outcome(images, &host(0), &late_element(4), |store, host| {
            let cells = store.table(host, 0).expect("a table");
            let (owner, function) = store.function(cells[1]).expect("what the first segment wrote stays");
            assert_eq!((function, cells[0], cells[2], cells[3]), (0, 0, 0, 0));
            assert!(owner != host, "the function's instance stays too");
            let memory = store.memory(owner, 0).expect("a memory");
            assert!(memory.len() == 65536 && memory.iter().all(|byte| *byte == 0), "it saw no data");
        });
        assert!(matches!(trap, Err(Error::Trap { phase: Phase::Elements, segment: 1 })), "{trap:?}");
        assert_eq!(trap.unwrap_err().to_string(), "trap: element segment 1 of those left does not fit");
    }
}

#[test]
fn an_element_segment_that_fits() {
    let done = outcome(Images::Map, &host(0), &late_element(3), |store, host| {
        let (owner, _) = store.function(store.table(host, 0).expect("a table")[3]).expect("a function");
        assert!(store.memory(owner, 0).expect("a memory")[8..].starts_with(b"seen\0"));
    });
    assert!(done.is_ok(), "{done:?}");
}

#[test]
fn a_data_segment_that_does_not_fit() {
    for (offset, fits) in [(65530, true), (65531, false), (65536, false), (-1, false)] {
        let done = outcome(Images::Map, &host(offset), &late_data(), |store, host| {
            let memory = store.memory(host, 0).expect("a memory");
            assert!(memory[8..].starts_with(b"first\0"), "what the first segment wrote stays");
            assert_eq!(memory.ends_with(b"second"), fits);
        });
        assert_eq!(fits, done.is_ok());
        assert!(fits || matches!(done, Err(Error::Trap { phase: Phase::Data, segment: 1 })), "{done:?}");
    }
}

#[test]
fn a_data_segment_past_a_memory_of_its_own() {
    // No image is made, since one segment does not fit.
    let bytes = module(&[
        section(5, &[limits(1, None)]),
        section(11, &[data(&constant(0), b"x"), data(&constant(65536), b""), data(&constant(65536), b"y")]),
    ]);
    let trap = outcome(Images::Map, &host(0), &bytes, |_, _| {});
    assert!(matches!(trap, Err(Error::Trap { phase: Phase::Data, segment: 2 })), "{trap:?}");
}

#[test]
fn elements_trap_before_data() {
    let bytes = module(&[
        section(4, &[[vec![0x70], limits(1, None)].concat()]),
        section(5, &[limits(1, None)]),
        section(9, &[elements(&constant(2), &[])]),
        section(11, &[data(&constant(65536), b"y")]),
    ]);
    let trap = outcome(Images::Map, &host(0), &bytes, |_, _| {});
    assert!(matches!(trap, Err(Error::Trap { phase: Phase::Elements, segment: 0 })), "{trap:?}");
}

#[test]
fn imports_that_do_not_link() {
    let missing = module(&[section(2, &[import("e", "n", 2, &[0, 1])])]);
    let small = module(&[section(2, &[import("e", "m", 2, &[0, 1]), import("e", "m", 2, &[0, 2])])]);
    let said = |bytes: &[u8]| outcome(Images::Map, &host(0), bytes, |_, _| {}).unwrap_err().to_string();
    assert_eq!(said(&missing), "import \"e\" \"n\" memory 0 is missing");
    assert_eq!(said(&small), "import \"e\" \"m\" memory 1: the memory is too small");
}

/// In the standard the table itself is matched, which has four cells. The library goes by what the
/// middle one declares.
#[test]
fn what_is_exported_again_counts_as_it_is_declared() {
    let engine = Engine::new(Config::default());
    let middle = |least| {
        let table = [[0x70].as_slice(), &limits(least, None)].concat();
        module(&[section(2, &[import("e", "t", 1, &table)]), section(7, &[export("again", 1, 0)])])
    };
    let last = module(&[section(2, &[import("m", "again", 1, &[0x70, 0, 4])])]);
    for (least, said) in [(4, None), (3, Some("import \"m\" \"again\" table 0: the table is too small"))] {
        let bytes = middle(least);
        let [middle, last] = [&bytes, &last].map(|bytes| Template::new(&engine, bytes).expect("a template"));
        let outcome = last.link(&[("m", &middle)]).map(|_| ());
        assert_eq!(outcome.err().map(|error| error.to_string()).as_deref(), said);
    }
}

#[test]
fn instances_of_other_modules() {
    let engine = Engine::new(Config::default());
    let (bytes, importer) = (host(0), late_data());
    let [host, other] = [0, 1].map(|_| Template::new(&engine, &bytes).expect("a host"));
    let template = Template::new(&engine, &importer).expect("a template");
    let linked = template.link(&[("e", &host)]).expect("it is linked");
    let mut store = Store::new();
    let (wrong, _right) = (made(&mut store, &other), made(&mut store, &host));
    assert!(matches!(store.instantiate(&linked, &[wrong]), Err(Error::WrongInstances)));
    assert!(matches!(store.instantiate(&linked, &[]), Err(Error::WrongInstances)));
}

#[test]
fn modules_that_are_refused() {
    let limits_of = Limits { memory_bytes: 65536, table_cells: 4 };
    let engine = Engine::new(Config { limits: limits_of, ..Config::default() });
    let said = |bytes: &[u8]| Template::new(&engine, bytes).map(|_| ()).unwrap_err().to_string();
    assert_eq!(said(&[]), "refused malformed");
    assert_eq!(said(&module(&[section(5, &[limits(1, None), limits(1, None)])])), "too large: the memories");
    assert_eq!(
        said(&module(&[section(4, &[[vec![0x70], limits(5, None)].concat()])])),
        "too large: the tables"
    );
    assert_eq!(said(&module(&[section(5, &[vec![3, 1, 1]])])), "not supported: memories that threads share");
    let structs = [section(1, &[vec![0x5F, 0]]), section(6, &[vec![0x64, 0, 0, 0xFB, 1, 0, 0x0B]])];
    assert_eq!(said(&module(&structs)), "not supported: structs and arrays");
}
