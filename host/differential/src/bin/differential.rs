//! Compares the model of the specification with the reference on random cases, on all small ones,
//! or on one from a file.
use butrask_differential::drive::Progress;
use butrask_differential::{compare, drive, exhaustive, listed, recorded, Case, Tally};
use butrask_model::Model;
use std::process::ExitCode;

const USAGE: &str = "\
usage: differential [--calls N] [--seed N]    compare on random cases, a million calls unless N is given
       differential --exhaustive              compare on all small states, stores, lists and keys
       differential --replay FILE             compare on the case in a file
       differential --record                  write blocks for the list tests/answers.txt
       differential --record-words FILE       write the list that the program `replay` takes
";

/// What is asked for.
enum Task {
    Random { calls: u64, seed: u64 },
    Exhaustive,
    Replay(String),
    Record,
    RecordWords(String),
}

fn main() -> ExitCode {
    let args: Vec<String> = std::env::args().skip(1).collect();
    let Some(task) = task(&args) else {
        eprint!("{USAGE}");
        return ExitCode::from(2);
    };
    if !butrask_reference::BUILT {
        eprintln!("{}", butrask_reference::NOT_BUILT);
        return ExitCode::from(1);
    }
    match perform(task) {
        Ok(()) => ExitCode::SUCCESS,
        Err(message) => {
            eprint!("{message}");
            ExitCode::from(1)
        }
    }
}

fn task(args: &[String]) -> Option<Task> {
    match args {
        [option] if option == "--exhaustive" => return Some(Task::Exhaustive),
        [option] if option == "--record" => return Some(Task::Record),
        [option, file] if option == "--replay" => return Some(Task::Replay(file.clone())),
        [option, file] if option == "--record-words" => {
            return Some(Task::RecordWords(file.clone()))
        }
        _ => {}
    }
    let (mut calls, mut seed) = (1_000_000, 2026);
    let pairs = args.chunks_exact(2);
    if !pairs.remainder().is_empty() {
        return None;
    }
    for pair in pairs {
        let number = pair[1].parse().ok()?;
        match pair[0].as_str() {
            "--calls" => calls = number,
            "--seed" => seed = number,
            _ => return None,
        }
    }
    Some(Task::Random { calls, seed })
}

fn perform(task: Task) -> Result<(), String> {
    match task {
        Task::Random { calls, seed } => {
            println!("seed {seed}");
            compared(drive::sound_cases(seed, calls))
        }
        Task::Exhaustive => {
            compared(exhaustive::cases())?;
            compared(exhaustive::mirrored_cases())?;
            compared(exhaustive::tight_cases())?;
            compared(exhaustive::dense_cases())?;
            compared(exhaustive::comparison_cases())
        }
        Task::Replay(file) => {
            let text = std::fs::read_to_string(&file).map_err(|e| format!("{file}: {e}\n"))?;
            let case: Case = text.parse().map_err(|e| format!("{file}: {e}\n"))?;
            compared([case])
        }
        Task::Record => {
            print!("{}", recorded::list(2026, 40)?);
            Ok(())
        }
        Task::RecordWords(file) => {
            let list = listed::list(listed::SEED)?;
            let bytes = list.bytes();
            std::fs::write(&file, &bytes).map_err(|e| format!("{file}: {e}\n"))?;
            println!("{list}; {} bytes", bytes.len());
            Ok(())
        }
    }
}

/// Compares on every case. Prints how many calls were made, every two seconds and at the end.
fn compared(cases: impl IntoIterator<Item = Case>) -> Result<(), String> {
    let mut tally = Tally::default();
    let mut progress = Progress::new("model beside the reference");
    drive::drive(cases, |case| {
        progress.at(tally.counts.calls());
        compare::as_reference(&mut Model, case, &mut tally)
    })
    .map_err(|failure| failure.to_string())?;
    println!("{tally}; {:.1} s", progress.elapsed().as_secs_f64());
    Ok(())
}
