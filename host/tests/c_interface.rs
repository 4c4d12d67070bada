//! The programs of `ctest` over `include/butrask.h`, compiled by the system's C compiler and run.
use butrask_calls::{answer_text, Refusal, BOUNDARY};
use butrask_differential::say;
use std::path::{Path, PathBuf};
use std::process::Command;

/// The program of a file of `ctest`. None where there is no C compiler, which is said.
fn compiled(name: &str) -> Option<PathBuf> {
    let host = Path::new(env!("CARGO_MANIFEST_DIR"));
    let compiler = std::env::var("CC").unwrap_or_else(|_| "cc".into());
    let program = Path::new(env!("CARGO_TARGET_TMPDIR")).join(name);
    let compiled = Command::new(&compiler)
        .args(["-std=c11", "-Wall", "-Wextra", "-Werror", "-I"])
        .arg(host.join("include"))
        .arg(host.join("ctest").join(name).with_extension("c"))
        .args(std::env::split_paths(env!("BUTRASK_ARCHIVES")))
        .arg("-o")
        .arg(&program)
        .output();
    match compiled {
        Ok(output) => {
            let errors = String::from_utf8_lossy(&output.stderr);
            assert!(output.status.success(), "{errors}");
            Some(program)
        }
        Err(e) => {
            let message = format!("ctest/{name}.c is not run: no C compiler `{compiler}`: {e}");
            let ci = std::env::var_os("CI").is_some_and(|value| value == "true");
            assert!(!ci, "{message}");
            say(&format!("\n*** {message} ***\n"));
            None
        }
    }
}

#[test]
fn calls_from_c() {
    let Some(program) = compiled("calls") else {
        return;
    };
    let ran = Command::new(program).output().expect("the program runs");
    let printed = String::from_utf8_lossy(&ran.stdout);
    assert!(ran.status.success(), "{printed}");
}

/// `butrask_refusal_name` gives the texts of the table, and one for all numbers that no call gives.
#[test]
fn answers_in_c_are_the_table() {
    let Some(program) = compiled("names") else {
        return;
    };
    let answers: Vec<u64> = (0..=255).chain([1 << 32, u64::MAX]).collect();
    let arguments = answers.iter().map(u64::to_string);
    let ran = Command::new(program).args(arguments).output();
    let printed = String::from_utf8(ran.expect("the program runs").stdout).expect("plain text");
    let lines: Vec<&str> = printed.lines().collect();
    let expected: Vec<String> = answers.iter().map(|answer| answer_text(*answer)).collect();
    assert_eq!(lines, expected);
    let named = expected
        .iter()
        .filter(|text| text.as_str() != answer_text(u64::MAX));
    assert_eq!(named.count(), 1 + Refusal::ALL.len() + BOUNDARY.len());
}
