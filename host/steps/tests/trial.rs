//! The script bin/trial in a folder of its own, with stand-ins for cargo, rt and the program.
#![cfg(unix)]
mod common;
use common::repository;
use std::fs;
use std::os::unix::fs::{symlink, PermissionsExt};
use std::path::{Path, PathBuf};
use std::process::Command;
use std::sync::{Mutex, MutexGuard};

/// Held while a script is written and run: a child that starts meanwhile would keep the script
/// open, and then it cannot run.
static ONE_AT_A_TIME: Mutex<()> = Mutex::new(());

const TEXT: &str = "premeasure 1\nmeasure 4 1 2\n";

/// A program that passes its input on.
const PASSES_ON: &str = "cat";

/// What a run of the script gave.
#[derive(Debug, PartialEq)]
struct Run {
    status: i32,
    out: Vec<u8>,
    err: String,
}

fn gave(status: i32, out: &[u8], err: &str) -> Run {
    Run {
        status,
        out: out.to_vec(),
        err: err.to_string(),
    }
}

/// A repository with the script alone, and the only tools that it finds.
struct Place {
    root: PathBuf,
    _held: MutexGuard<'static, ()>,
}

impl Drop for Place {
    fn drop(&mut self) {
        let _ = fs::remove_dir_all(&self.root);
    }
}

impl Place {
    fn new(name: &str) -> Place {
        let held = ONE_AT_A_TIME.lock().unwrap_or_else(|e| e.into_inner());
        // Outside the checkout: rt takes no second crates.txt in it.
        let root = std::env::temp_dir().join(format!("trial {name} {}", std::process::id()));
        fs::create_dir(&root).unwrap();
        for part in ["bin", "tools", "tmp", "work"] {
            fs::create_dir(root.join(part)).unwrap();
        }
        fs::copy(repository().join("bin/trial"), root.join("bin/trial")).unwrap();
        let tools = [
            "sh", "dirname", "mktemp", "rm", "cat", "mkdir", "chmod", "awk", "grep", "head", "wc",
        ];
        for tool in tools {
            let path = std::env::var_os("PATH").unwrap();
            let found = std::env::split_paths(&path)
                .map(|p| p.join(tool))
                .find(|p| p.exists());
            symlink(found.unwrap(), root.join("tools").join(tool)).unwrap();
        }
        Place { root, _held: held }
    }

    /// Writes an executable script.
    fn script(&self, path: &str, body: &str) {
        let path = self.root.join(path);
        fs::create_dir_all(path.parent().unwrap()).unwrap();
        fs::write(&path, format!("#!/bin/sh\n{body}\n")).unwrap();
        fs::set_permissions(&path, fs::Permissions::from_mode(0o755)).unwrap();
    }

    /// A cargo that notes its words before `--` and runs the converter with the others.
    fn with_cargo(self) -> Place {
        let body = format!(
            "while [ \"$1\" != -- ]; do echo \"$1\"; shift; done >'{}/cargo words'\nshift\nexec '{}' \"$@\"",
            self.root.display(),
            env!("CARGO_BIN_EXE_steps")
        );
        self.script("tools/cargo", &body);
        self
    }

    fn with_program(self, body: &str) -> Place {
        self.script("crates/trial/out/trial", body);
        self
    }

    fn with_crate(self) -> Place {
        fs::create_dir_all(self.root.join("crates/trial/src")).unwrap();
        let crates = "# Three, and one that trial is not made of.\nkeys:\nmerge: keys\nother:\ntrial: io merge\n";
        fs::write(self.root.join("crates.txt"), crates).unwrap();
        self
    }

    /// Writes a file into the folder that the script is run in.
    fn with_file(self, name: &str, bytes: &[u8]) -> Place {
        fs::write(self.root.join("work").join(name), bytes).unwrap();
        self
    }

    fn run(&self, args: &[&str]) -> Run {
        let output = Command::new(self.root.join("bin/trial"))
            .args(args)
            .current_dir(self.root.join("work"))
            .env("PATH", self.root.join("tools"))
            .env("TMPDIR", self.root.join("tmp"))
            .output()
            .unwrap();
        let left: Vec<_> = fs::read_dir(self.root.join("tmp")).unwrap().collect();
        assert!(left.is_empty(), "{left:?} are left");
        Run {
            status: output.status.code().unwrap(),
            out: output.stdout,
            err: String::from_utf8(output.stderr).unwrap(),
        }
    }

    fn read(&self, path: impl AsRef<Path>) -> String {
        fs::read_to_string(self.root.join(path)).unwrap()
    }
}

fn encoded() -> Vec<u8> {
    butrask_steps::encode(TEXT.as_bytes()).unwrap()
}

#[test]
fn text_is_converted() {
    for name in ["a.txt", "two words.txt", "-a.txt", "a.steps.txt"] {
        let place = Place::new("text")
            .with_cargo()
            .with_program(PASSES_ON)
            .with_file(name, TEXT.as_bytes());
        assert_eq!(place.run(&[name]), gave(0, &encoded(), ""), "{name}");
        let root = place.root.canonicalize().unwrap();
        assert_eq!(
            place.read("cargo words").replace('\n', " "),
            format!(
                "run --quiet --release --offline --manifest-path {}/host/Cargo.toml --bin steps ",
                root.display()
            )
        );
    }
}

#[test]
fn step_bytes_are_passed_as_they_are() {
    let mut bytes = encoded();
    bytes.extend([0, 10, 255]);
    for name in ["a.steps", "two words.steps", "-a.steps", "a.txt.steps"] {
        let place = Place::new("bytes")
            .with_program(PASSES_ON)
            .with_file(name, &bytes);
        assert_eq!(place.run(&[name]), gave(0, &bytes, ""), "{name}");
    }
}

#[test]
fn the_status_of_the_program_is_passed_on() {
    let place = Place::new("status")
        .with_cargo()
        .with_program("cat; echo oops >&2; exit 7");
    let place = place
        .with_file("a.txt", TEXT.as_bytes())
        .with_file("a.steps", &encoded());
    for name in ["a.txt", "a.steps"] {
        assert_eq!(place.run(&[name]), gave(7, &encoded(), "oops\n"), "{name}");
    }
}

#[test]
fn a_bad_line_is_named_and_the_program_is_not_run() {
    let error = "a.txt:2: expected the outcome, 0 or 1, found `2`\n";
    let text = b"premeasure 1\nmeasure 4 2 1\n";
    let place = Place::new("bad line").with_cargo().with_file("a.txt", text);
    assert_eq!(place.run(&["a.txt"]), gave(1, b"", error));
    let place = place.with_program("echo run");
    assert_eq!(place.run(&["a.txt"]), gave(1, b"", error));
}

#[test]
fn a_missing_part_is_named() {
    let place = Place::new("missing")
        .with_file("a.txt", TEXT.as_bytes())
        .with_file("a.steps", &encoded());
    let no_cargo = "bin/trial: cargo is missing: it builds the converter host/steps\n";
    let no_crate = "bin/trial: the program is missing: \
        there is neither crates/trial/out/trial nor a crate crates/trial to build it from\n";
    let no_rt = "bin/trial: rt is missing: it builds crates/trial/out/trial\n";
    assert_eq!(place.run(&["a.txt"]), gave(1, b"", no_cargo));
    assert_eq!(place.run(&["a.steps"]), gave(1, b"", no_crate));
    let place = place.with_cargo();
    assert_eq!(place.run(&["a.txt"]), gave(1, b"", no_crate));
    let place = place.with_crate();
    assert_eq!(place.run(&["a.txt"]), gave(1, b"", no_rt));
    assert_eq!(place.run(&["a.steps"]), gave(1, b"", no_rt));
}

/// What is said before a build from nothing.
const BUILDING: &str =
    "bin/trial: proving and building the program, which takes some minutes: 3 crates, now keys\n";

/// A stand-in for rt, run in crates/trial, that writes a program which passes its input on, with a
/// word of its own before it.
fn builds(word: &str) -> String {
    format!(
        "echo proved; mkdir -p out; \
         printf '#!/bin/sh\nprintf {word}; cat\n' >out/trial; chmod +x out/trial"
    )
}

#[test]
fn the_program_is_kept_up_to_date() {
    let place = Place::new("built")
        .with_crate()
        .with_file("a.steps", &encoded());
    let output = |word: &str| [word.as_bytes(), &encoded()].concat();
    place.script("tools/rt", &builds("old"));
    assert_eq!(place.run(&["a.steps"]), gave(0, &output("old"), BUILDING));
    place.script("tools/rt", &builds("new"));
    assert_eq!(place.run(&["a.steps"]), gave(0, &output("new"), ""));
}

/// What was proved before is passed over in silence.
#[test]
fn a_build_says_what_is_proved_and_what_is_left() {
    let place = Place::new("progress")
        .with_crate()
        .with_file("a.steps", &encoded());
    let said = "echo 'rt: chose --jobs 2 for merge'; echo 'fn merge::find: proved'; \
        echo 'logic=proved functions=1'; echo 'rt: chose --jobs 1 for trial'; \
        echo 'logic=proved functions=2'; ";
    place.script("tools/rt", &(said.to_string() + &builds("new")));
    let expected = format!(
        "{BUILDING}bin/trial: proved merge, 1 left, now trial\nbin/trial: proved trial, 0 left\n"
    );
    let output = [b"new".as_slice(), &encoded()].concat();
    assert_eq!(place.run(&["a.steps"]), gave(0, &output, &expected));
}

#[test]
fn a_failed_build_is_named() {
    let place = Place::new("failed")
        .with_crate()
        .with_file("a.steps", &encoded());
    place.script("tools/rt", "echo not proved; exit 3");
    let failed = "not proved\nbin/trial: rt run failed in crates/trial\n";
    assert_eq!(
        place.run(&["a.steps"]),
        gave(1, b"", &format!("{BUILDING}{failed}"))
    );
    place.script("tools/rt", "exit 0");
    let wrote_none = "bin/trial: rt run wrote no crates/trial/out/trial\n";
    assert_eq!(
        place.run(&["a.steps"]),
        gave(1, b"", &format!("{BUILDING}{wrote_none}"))
    );
}

#[test]
fn wrong_usage_is_named() {
    let place = Place::new("usage").with_cargo().with_program("echo run");
    let place = place
        .with_file("a.text", TEXT.as_bytes())
        .with_file("a.txt", TEXT.as_bytes());
    let usage = "bin/trial: expected one file: bin/trial FILE.txt or bin/trial FILE.steps\n";
    assert_eq!(place.run(&[]), gave(2, b"", usage));
    assert_eq!(place.run(&["a.txt", "a.txt"]), gave(2, b"", usage));
    for name in ["a.text", "-", "txt"] {
        let ending = format!(
            "bin/trial: expected a file that ends in .txt (text) or .steps (bytes), found {name}\n"
        );
        assert_eq!(place.run(&[name]), gave(2, b"", &ending));
    }
    for name in ["b.txt", "b.steps"] {
        assert_eq!(
            place.run(&[name]),
            gave(1, b"", &format!("bin/trial: there is no file {name}\n"))
        );
    }
}
