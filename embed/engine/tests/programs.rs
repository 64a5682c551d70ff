//! A thousand instances of each program hold what a plain replay of its plan says, and none sees
//! what another wrote.

mod common;

use common::replay::{Cell, State, Value, replay};
use common::{host, programs};
use engine::{Config, Engine, Images, InstanceId, Linked, Store, Template};

/// The function that a cell refers to, by the number of its module: the instances of a round are in
/// the order of the modules.
fn cell(store: &Store<'_>, first: &[InstanceId], cell: u64) -> Cell {
    let (owner, function) = store.function(cell)?;
    Some((first.iter().position(|id| *id == owner).expect("an instance of this round"), function))
}

fn compare(store: &Store<'_>, round: &[InstanceId], wanted: &State, name: &str) {
    let id = *round.last().expect("an instance");
    for (memory, bytes) in (0..).zip(&wanted.memories) {
        assert!(store.memory(id, memory) == Some(bytes), "{name}: memory {memory} of {id:?}");
    }
    for (table, cells) in (0..).zip(&wanted.tables) {
        let held = store.table(id, table).expect("a table").iter().map(|one| cell(store, round, *one));
        assert!(held.eq(cells.iter().copied()), "{name}: table {table} of {id:?}");
    }
    for (global, value) in (0..).zip(&wanted.globals) {
        let bits = store.global(id, global).expect("a global");
        match value {
            Value::Bits(wanted) => assert_eq!(bits, *wanted, "{name}: global {global} of {id:?}"),
            Value::Cell(wanted) => {
                assert_eq!(cell(store, round, bits as u64), *wanted, "{name}: global {global}")
            }
        }
    }
}

/// Writes a few pages of an instance, the first among them, so that another that shares one of
/// these would differ.
fn spoil(store: &mut Store<'_>, id: InstanceId, seed: usize) {
    for memory in 0.. {
        let Some(bytes) = store.memory_mut(id, memory) else { return };
        bytes.iter_mut().step_by(40961).for_each(|byte| *byte = !*byte ^ seed as u8);
    }
}

/// The instances of a program, each with hosts of its own. Each is compared when it is made.
fn make_many(engine: &Engine, name: &str, program: &[u8], instances: usize) {
    let plan = bobbinazure::Plan::new(program, &engine.options()).expect("it is planned");
    let names = host::names(&plan);
    let spelled: Vec<Vec<u8>> = names.iter().map(|name| host::host(&plan, name)).collect();
    let hosts: Vec<Template<'_>> =
        spelled.iter().map(|bytes| Template::new(engine, bytes).expect("a host")).collect();
    let template = Template::new(engine, program).expect("a template");
    let exporters: Vec<(&str, &Template<'_>)> = names.iter().copied().zip(&hosts).collect();
    let linked = template.link(&exporters).expect("it is linked");
    let lone: Vec<Linked<'_>> = hosts.iter().map(|host| host.link(&[]).expect("no imports")).collect();

    let states: Vec<State> =
        spelled.iter().enumerate().map(|(number, bytes)| replay(bytes, number, &[])).collect();
    let from: Vec<(&str, &State)> = names.iter().copied().zip(&states).collect();
    let wanted = replay(program, hosts.len(), &from);
    assert_eq!(wanted.trap, None, "{name}");

    let mut store = Store::new();
    for seed in 0..instances {
        let mut round: Vec<InstanceId> = Vec::new();
        for host in &lone {
            round.push(store.instantiate(host, &[]).expect("an instance of a host"));
        }
        round.push(store.instantiate(&linked, &round).expect("an instance"));
        compare(&store, &round, &wanted, name);
        round.iter().for_each(|id| spoil(&mut store, *id, seed));
    }
}

#[test]
fn a_thousand_instances_of_each_program() {
    let engine = Engine::new(Config::default());
    let programs = programs();
    assert!(programs.len() >= 20);
    programs.iter().for_each(|(name, program)| make_many(&engine, name, program, 1000));
}

#[test]
fn copied_images_are_the_same() {
    let engine = Engine::new(Config { images: Images::Copy, ..Config::default() });
    programs().iter().for_each(|(name, program)| make_many(&engine, name, program, 50));
}
