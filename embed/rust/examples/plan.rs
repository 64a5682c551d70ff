//! plan FILE.wasm [FLAG ..] : prints the plan, with the flags of the program such as `--cow`, and on
//! standard error what an embedder reads of its tables.

use bobbinazure::{Error, Options, plan_and_text};
use std::process::ExitCode;

fn main() -> ExitCode {
    let mut words = std::env::args().skip(1);
    let Some(file) = words.next() else { return ExitCode::from(2) };
    let mut options = Options::default();
    for word in words {
        let Some((_, flag)) = Options::FLAGS.iter().find(|(known, _)| *known == word) else { return ExitCode::from(2) };
        *flag(&mut options) = true;
    }
    let Ok(bytes) = std::fs::read(file) else { return ExitCode::from(3) };
    match plan_and_text(&bytes, &options) {
        Ok((plan, text)) => {
            for image in plan.memory_images() {
                eprintln!("memory {} begins as {} bytes at {}", image.memory, image.bytes.len(), image.offset);
            }
            eprintln!("declared types {:?}, a context of {} bytes", plan.declared_types(), plan.offsets().size);
            print!("{text}");
            ExitCode::SUCCESS
        }
        Err(error) => {
            println!("{error}");
            ExitCode::from(match error {
                Error::Refused { .. } => 1,
                Error::WrongOptions => 2,
                Error::OutOfMemory => 5,
            })
        }
    }
}
