//! Converts step files to and from their text form.
use std::ffi::OsStr;
use std::io::{self, Read, Write};
use std::process::ExitCode;

const USAGE: &str = "\
usage: steps encode FILE.txt      write the step bytes of a text to standard output
       steps decode FILE.steps    write the text of step bytes to standard output
FILE - is standard input.
";

fn main() -> ExitCode {
    let args: Vec<_> = std::env::args_os().skip(1).collect();
    let args: Vec<&OsStr> = args.iter().map(|a| a.as_os_str()).collect();
    let done = match args[..] {
        [command, file] if command == "encode" => encode(file),
        [command, file] if command == "decode" => decode(file),
        [word] if word == "--help" || word == "-h" => write(USAGE.as_bytes()),
        _ => {
            eprint!("{USAGE}");
            return ExitCode::from(2);
        }
    };
    match done {
        Ok(()) => ExitCode::SUCCESS,
        Err(message) => {
            eprintln!("{message}");
            ExitCode::from(1)
        }
    }
}

fn encode(file: &OsStr) -> Result<(), String> {
    let text = read(file)?;
    let bytes = butrask_steps::encode(&text).map_err(|e| format!("{}:{e}", shown(file)))?;
    write(&bytes)
}

fn decode(file: &OsStr) -> Result<(), String> {
    let bytes = read(file)?;
    let (text, stray) = butrask_steps::decode(&bytes);
    write(text.as_bytes())?;
    if stray == 0 {
        return Ok(());
    }
    Err(format!(
        "{}: expected steps of {} bytes, found {stray} stray byte{} at the end",
        shown(file),
        butrask_steps::STEP_BYTES,
        if stray == 1 { "" } else { "s" },
    ))
}

fn read(file: &OsStr) -> Result<Vec<u8>, String> {
    let bytes = if file == "-" {
        let mut bytes = Vec::new();
        io::stdin().lock().read_to_end(&mut bytes).map(|_| bytes)
    } else {
        std::fs::read(file)
    };
    bytes.map_err(|e| format!("{}: {e}", shown(file)))
}

fn write(bytes: &[u8]) -> Result<(), String> {
    let mut out = io::stdout().lock();
    out.write_all(bytes)
        .and_then(|()| out.flush())
        .map_err(|e| format!("standard output: {e}"))
}

/// A file as messages name it.
fn shown(file: &OsStr) -> String {
    if file == "-" {
        "standard input".to_string()
    } else {
        file.to_string_lossy().into_owned()
    }
}
