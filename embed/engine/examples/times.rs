//! times FILE : writes into FILE a module whose memory begins as an image of 16 MiB, and prints how
//! long an instance takes, by mapping and by copying, with so many pages written after it is made.
//! The time is the middle one, and counts that the instance is given back.

#[path = "../tests/common/mod.rs"]
mod common;

use common::spelling::with_image;
use engine::{Config, Engine, Images, Linked, Store, Template};
use std::error::Error;
use std::time::{Duration, Instant};

const IMAGE: usize = 16 << 20;
const PAGE: usize = 4096;

/// The middle one of so many times.
fn middle(
    rounds: usize,
    mut once: impl FnMut() -> Result<Duration, engine::Error>,
) -> Result<f64, engine::Error> {
    let mut times = (0..rounds).map(|_| once()).collect::<Result<Vec<_>, _>>()?;
    times.sort();
    Ok(times[rounds / 2].as_secs_f64() * 1e6)
}

/// Makes an instance, writes the first bytes of pages, and gives it back.
fn instance(linked: &Linked<'_>, pages: usize) -> Result<Duration, engine::Error> {
    let begun = Instant::now();
    let mut store = Store::new();
    let id = store.instantiate(linked, &[])?;
    if let Some(memory) = store.memory_mut(id, 0) {
        memory.iter_mut().step_by(PAGE).take(pages).for_each(|byte| *byte = byte.wrapping_add(1));
    }
    drop(store);
    Ok(begun.elapsed())
}

fn main() -> Result<(), Box<dyn Error>> {
    let file = std::env::args_os().nth(1).ok_or("times FILE")?;
    let bytes = with_image(IMAGE);
    std::fs::write(file, &bytes)?;
    for images in [Images::Map, Images::Copy] {
        let engine = Engine::new(Config { images, ..Config::default() });
        let begun = Instant::now();
        let template = Template::new(&engine, &bytes)?;
        println!("{images:?}: the template {:.0} us", begun.elapsed().as_secs_f64() * 1e6);
        let linked = template.link(&[])?;
        for pages in [0, 16, 256, IMAGE / PAGE] {
            let rounds = if images == Images::Map && pages <= 256 { 1001 } else { 41 };
            let time = middle(rounds, || instance(&linked, pages))?;
            println!("{images:?}: an instance, {pages} pages written: {time:.1} us");
        }
    }
    Ok(())
}
