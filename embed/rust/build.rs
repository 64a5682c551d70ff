//! Links the static library: that of the folder that BOBBINAZURE_LIB names, else that of dist/,
//! where it is built from the sources of this repository.

use std::path::{Path, PathBuf};
use std::process::Command;

/// The folder of dist/, where SHA256 there names the digest of the sources (tools/sources).
fn handed_out(root: &Path) -> Option<PathBuf> {
    let dist = root.join("dist");
    let sums = std::fs::read_to_string(dist.join("SHA256")).ok()?;
    let said = Command::new("sh").arg(root.join("tools/sources")).output().ok()?;
    let digest = String::from_utf8(said.stdout).ok()?;
    let is_current = said.status.success() && sums.lines().any(|line| line == format!("# sources {}", digest.trim()));
    is_current.then_some(dist)
}

/// Has cargo run this again where what `handed_out` reads has changed.
fn watch(root: &Path) {
    for name in ["dist/SHA256", "crates.txt", "crates"] {
        let path = root.join(name);
        if path.is_dir() {
            for folder in std::fs::read_dir(&path).into_iter().flatten().flatten() {
                for part in ["src", "specs"].map(|part| folder.path().join(part)).iter().filter(|part| part.is_dir()) {
                    println!("cargo:rerun-if-changed={}", part.display());
                }
            }
        } else {
            println!("cargo:rerun-if-changed={}", path.display());
        }
    }
}

fn main() {
    println!("cargo:rerun-if-env-changed=BOBBINAZURE_LIB");
    let root = Path::new(env!("CARGO_MANIFEST_DIR")).join("../..");
    let folder = std::env::var("BOBBINAZURE_LIB").map(PathBuf::from).unwrap_or_else(|_| {
        watch(&root);
        handed_out(&root).expect("dist/ is not of these sources: `tools/release` makes it, or BOBBINAZURE_LIB names the folder of libbobbinazure.a")
    });
    println!("cargo:rustc-link-search=native={}", folder.display());
    println!("cargo:rustc-link-lib=static=bobbinazure");
    println!("cargo:rerun-if-changed={}", folder.join("libbobbinazure.a").display());
}
