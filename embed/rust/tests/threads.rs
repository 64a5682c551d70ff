//! Calls in several threads do not meet: each thread has the answers that one thread has.

use bobbinazure::{Options, Plan, link, locate, locate_rule, names, sections, text};
use std::thread;

const THREADS: usize = 8;
const ROUNDS: usize = 10;

fn example(name: &str) -> Vec<u8> {
    std::fs::read(format!("{}/../../examples/{name}.wasm", env!("CARGO_MANIFEST_DIR"))).expect("the example is there")
}

/// What every call says of these bytes.
fn told(bytes: &[u8], options: &Options) -> String {
    let places = (locate(bytes), locate_rule(bytes), sections(bytes), names(bytes));
    format!("{:?} {places:?} {:?}", text(bytes, options), link(bytes, bytes, "env", options))
}

#[test]
fn every_thread_is_answered_alike() {
    let cut = example("linked")[..40].to_vec();
    let limits = b"\0asm\x01\0\0\0\x05\x04\x01\x01\x09\x03".to_vec();
    let modules = [example("linked"), example("overlap"), cut, limits];
    let choices = [Options::default(), Options { cow: true, lazy_tables: true, native_debug: true, pointer: 4, collector: 1, ..Options::default() }];
    let told_of = || modules.iter().flat_map(|module| choices.iter().map(|options| told(module, options))).collect::<Vec<_>>();
    let wanted = told_of();
    thread::scope(|scope| {
        for _ in 0..THREADS {
            scope.spawn(|| (0..ROUNDS).for_each(|_| assert_eq!(told_of(), wanted)));
        }
    });
}

#[test]
fn a_plan_is_read_by_many_threads_and_dropped_by_another() {
    let bytes = example("linked");
    let plan = Plan::new(&bytes, &Options { cow: true, ..Options::default() }).expect("it is planned");
    let wanted: Vec<_> = plan.memory_images().map(|image| (image.memory, image.offset, image.bytes.len())).collect();
    thread::scope(|scope| {
        for _ in 0..THREADS {
            scope.spawn(|| assert_eq!(plan.memory_images().map(|image| (image.memory, image.offset, image.bytes.len())).collect::<Vec<_>>(), wanted));
        }
    });
    thread::scope(|scope| {
        scope.spawn(move || drop(plan));
    });
}
