//! Assembles the reference below OUT_DIR: copies of qblaze's sources, stand-ins for the modules
//! that they name and that are not among them, and child modules of ours that reach what is
//! private. Sets the flag `qblaze` if it could.
use std::env;
use std::fs;
use std::path::{Path, PathBuf};

/// The files of qblaze that the reference is made of, below its folder `src`.
const SOURCES: [&str; 18] = [
    "angle.rs",
    "arena.rs",
    "bitset.rs",
    "buffer.rs",
    "complex.rs",
    "context.rs",
    "qubit.rs",
    "qubit_set.rs",
    "sfree/compiler.rs",
    "sfree/gates.rs",
    "sfree/mod.rs",
    "sfree/queue.rs",
    "shamelessly_stolen_from_libstd.rs",
    "statevector.rs",
    "threading.rs",
    "u3.rs",
    "u4.rs",
    "util.rs",
];

/// Our own files: where they stand in the assembled reference, and their names below `standins`.
const STANDINS: [(&str, &str); 7] = [
    ("root.rs", "root.rs"),
    ("buffer/os.rs", "os.rs"),
    ("threading/sync_impl.rs", "sync_impl.rs"),
    ("bitset/access.rs", "bitset_access.rs"),
    ("buffer/access.rs", "buffer_access.rs"),
    ("u4/access.rs", "u4_access.rs"),
    ("statevector/access.rs", "statevector_access.rs"),
];

/// The files whose copy gets a child module `access`, the text of which is ours.
const WITH_ACCESS: [&str; 4] = ["bitset.rs", "buffer.rs", "u4.rs", "statevector.rs"];

fn main() {
    println!("cargo::rustc-check-cfg=cfg(qblaze)");
    // Features of qblaze that its sources ask for; none is on.
    println!("cargo::rustc-check-cfg=cfg(feature, values(\"mem_mmap\", \"perf\", \"sync_futex\", \"sync_spin\"))");
    println!("cargo::rerun-if-env-changed=QBLAZE_SRC");
    println!("cargo::rerun-if-changed=build.rs");
    println!("cargo::rerun-if-changed=standins");
    let folder = source_folder().join("src");
    println!("cargo::rerun-if-changed={}", folder.display());
    if let Some(missing) = SOURCES.iter().find(|name| !folder.join(name).is_file()) {
        println!(
            "cargo::warning=the reference is not built: {} is missing; set QBLAZE_SRC to a folder with qblaze's src",
            folder.join(missing).display()
        );
        return;
    }
    let out = PathBuf::from(env::var_os("OUT_DIR").unwrap()).join("qblaze");
    for name in SOURCES {
        let mut text = read(&folder.join(name));
        if WITH_ACCESS.contains(&name) {
            text += "\npub(crate) mod access;\n";
        }
        write(&out.join(name), &text);
    }
    for (place, name) in STANDINS {
        write(
            &out.join(place),
            &read(&manifest().join("standins").join(name)),
        );
    }
    println!("cargo::rustc-cfg=qblaze");
}

fn manifest() -> PathBuf {
    PathBuf::from(env::var_os("CARGO_MANIFEST_DIR").unwrap())
}

/// The folder that has qblaze's `src`: QBLAZE_SRC, or `shared/docs/src` beside the repository.
fn source_folder() -> PathBuf {
    env::var_os("QBLAZE_SRC").map_or_else(
        || manifest().join("../../../shared/docs/src"),
        PathBuf::from,
    )
}

fn read(path: &Path) -> String {
    fs::read_to_string(path).unwrap_or_else(|e| panic!("{}: {e}", path.display()))
}

fn write(path: &Path, text: &str) {
    let folder = path.parent().unwrap();
    fs::create_dir_all(folder).unwrap_or_else(|e| panic!("{}: {e}", folder.display()));
    fs::write(path, text).unwrap_or_else(|e| panic!("{}: {e}", path.display()));
}
