//! Links the archives that `rt lib` writes in the crates of the static libraries.
use std::env;
use std::path::{Path, PathBuf};

/// The archive that is shipped, and the one with the functions for tests.
const SHIPPED: &str = "butrask";
const PROBE: &str = "probe";

fn main() {
    let host = env::var("CARGO_MANIFEST_DIR").expect("cargo runs this");
    let crates = Path::new(&host).join("../crates");
    // What uses a library stands before it.
    let mut names = vec![];
    if env::var_os("CARGO_FEATURE_PROBE").is_some() {
        names.push(PROBE);
    }
    names.push(SHIPPED);
    let archives = names.iter().map(|name| link(&crates, name));
    let archives = env::join_paths(archives).expect("paths without a colon");
    // For the tests, which link a program in C.
    println!("cargo:rustc-env=BUTRASK_ARCHIVES={}", archives.display());
}

/// Links an archive, and gives its path.
fn link(crates: &Path, name: &str) -> PathBuf {
    let folder = crates.join(name).join("out");
    let archive = folder.join(format!("lib{name}.a"));
    assert!(
        archive.exists(),
        "{} is missing: run `rt lib` in crates/{name} first",
        archive.display()
    );
    println!("cargo:rustc-link-search=native={}", folder.display());
    println!("cargo:rerun-if-changed={}", archive.display());
    println!("cargo:rustc-link-lib=static={name}");
    archive
}
