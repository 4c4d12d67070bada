//! The program `steps`: what it writes where, and its exit status.
mod common;
use common::{bytes, folder};
use std::io::Write;
use std::path::Path;
use std::process::{Command, Stdio};

/// What a run of the program gave.
#[derive(Debug, PartialEq)]
struct Run {
    status: i32,
    out: Vec<u8>,
    err: String,
}

fn run(args: &[&str], input: &[u8]) -> Run {
    let mut child = Command::new(env!("CARGO_BIN_EXE_steps"))
        .args(args)
        .stdin(Stdio::piped())
        .stdout(Stdio::piped())
        .stderr(Stdio::piped())
        .spawn()
        .unwrap();
    // The program may end without reading its input.
    let _ = child.stdin.take().unwrap().write_all(input);
    let output = child.wait_with_output().unwrap();
    Run {
        status: output.status.code().unwrap(),
        out: output.stdout,
        err: String::from_utf8(output.stderr).unwrap(),
    }
}

fn gave(status: i32, out: &[u8], err: &str) -> Run {
    Run {
        status,
        out: out.to_vec(),
        err: err.to_string(),
    }
}

/// A file with these bytes, by name.
fn file(folder: &Path, name: &str, bytes: &[u8]) -> String {
    let path = folder.join(name);
    std::fs::write(&path, bytes).unwrap();
    path.to_str().unwrap().to_string()
}

fn two_steps() -> Vec<u8> {
    bytes(&[
        3,
        1,
        0,
        0,
        0,
        0,
        0,
        0,
        0,
        0,
        2,
        4,
        1,
        1 << 62,
        0,
        0,
        0,
        0,
        0,
        0,
    ])
}

const TWO_LINES: &[u8] = b"premeasure 1\nmeasure 4 1 2\n";

#[test]
fn encodes_a_file_and_standard_input() {
    let folder = folder("encodes");
    let name = file(&folder, "two steps.txt", TWO_LINES);
    assert_eq!(run(&["encode", &name], b""), gave(0, &two_steps(), ""));
    assert_eq!(run(&["encode", "-"], TWO_LINES), gave(0, &two_steps(), ""));
    assert_eq!(run(&["encode", "-"], b""), gave(0, b"", ""));
}

#[test]
fn decodes_a_file_and_standard_input() {
    let folder = folder("decodes");
    let name = file(&folder, "two.steps", &two_steps());
    assert_eq!(run(&["decode", &name], b""), gave(0, TWO_LINES, ""));
    assert_eq!(run(&["decode", "-"], &two_steps()), gave(0, TWO_LINES, ""));
    assert_eq!(run(&["decode", "-"], b""), gave(0, b"", ""));
}

#[test]
fn a_bad_line_is_named_and_nothing_is_written() {
    let folder = folder("bad");
    let text = b"premeasure 1\n# a remark\nmeasure 4 2 1\n";
    let name = file(&folder, "bad.txt", text);
    let rest = ":3: expected the outcome, 0 or 1, found `2`\n";
    assert_eq!(
        run(&["encode", &name], b""),
        gave(1, b"", &format!("{name}{rest}"))
    );
    assert_eq!(
        run(&["encode", "-"], text),
        gave(1, b"", &format!("standard input{rest}"))
    );
}

#[test]
fn stray_bytes_are_counted_after_the_whole_steps() {
    let folder = folder("stray");
    for (stray, counted) in [
        (1, "1 stray byte"),
        (2, "2 stray bytes"),
        (79, "79 stray bytes"),
    ] {
        for (steps, text) in [(two_steps(), TWO_LINES), (Vec::new(), &b""[..])] {
            let mut all = steps;
            all.extend(vec![7; stray]);
            let name = file(&folder, "stray.steps", &all);
            let rest = format!(": expected steps of 80 bytes, found {counted} at the end\n");
            assert_eq!(
                run(&["decode", &name], b""),
                gave(1, text, &format!("{name}{rest}"))
            );
            assert_eq!(
                run(&["decode", "-"], &all),
                gave(1, text, &format!("standard input{rest}"))
            );
        }
    }
}

#[test]
fn a_file_that_cannot_be_read_is_named() {
    let folder = folder("unread");
    let missing = folder.join("missing.txt");
    for path in [missing.to_str().unwrap(), folder.to_str().unwrap()] {
        for command in ["encode", "decode"] {
            let run = run(&[command, path], b"");
            assert_eq!((run.status, &run.out[..]), (1, &b""[..]));
            assert!(run.err.starts_with(&format!("{path}: ")), "{}", run.err);
        }
    }
}

#[test]
fn wrong_usage_has_status_2() {
    let help = run(&["--help"], b"");
    assert_eq!((help.status, help.err.as_str()), (0, ""));
    let usage = String::from_utf8(help.out).unwrap();
    assert!(
        usage.starts_with("usage: steps encode FILE.txt "),
        "{usage}"
    );
    let wrong: [&[&str]; 5] = [
        &[],
        &["encode"],
        &["convert", "-"],
        &["encode", "-", "-"],
        &["decode", "-", "-"],
    ];
    for args in wrong {
        assert_eq!(run(args, TWO_LINES), gave(2, b"", &usage), "{args:?}");
    }
}

#[cfg(target_os = "linux")]
#[test]
fn output_that_is_lost_is_an_error() {
    let folder = folder("lost");
    let name = file(&folder, "two.txt", TWO_LINES);
    let full = std::fs::OpenOptions::new()
        .write(true)
        .open("/dev/full")
        .unwrap();
    let output = Command::new(env!("CARGO_BIN_EXE_steps"))
        .args(["encode", &name])
        .stdout(full)
        .output()
        .unwrap();
    assert_eq!(output.status.code(), Some(1));
    assert!(output.stderr.starts_with(b"standard output: "));
}
