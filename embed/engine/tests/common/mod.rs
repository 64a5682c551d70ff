//! What the tests and the examples share.
#![allow(dead_code)] // each of them uses a part

pub mod host;
pub mod replay;
pub mod spelling;

use std::path::{Path, PathBuf};

/// The folder of the programs: that of PROGRAMS in the environment, or the one that is stored.
pub fn folder() -> PathBuf {
    let stored = || Path::new(env!("CARGO_MANIFEST_DIR")).join("programs");
    std::env::var_os("PROGRAMS").map_or_else(stored, PathBuf::from)
}

/// The programs that compilers made, by their names in order.
pub fn programs() -> Vec<(String, Vec<u8>)> {
    let entries = std::fs::read_dir(folder()).expect("the folder of the programs");
    let mut paths: Vec<PathBuf> = entries.map(|entry| entry.expect("an entry").path()).collect();
    paths.retain(|path| path.extension().is_some_and(|extension| extension == "wasm"));
    paths.sort();
    let named =
        |path: &PathBuf| path.file_stem().map(|name| name.to_string_lossy().into_owned()).unwrap_or_default();
    paths.iter().map(|path| (named(path), std::fs::read(path).expect("a program"))).collect()
}
