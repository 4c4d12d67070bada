//! The program `trial` against the model and against the outputs of examples/. The tests that run
//! the program are ignored unless they are asked for: they need crates/trial/out/trial, which `rt ci`
//! builds, or bin/trial (.ci/examples does both).
mod common;
mod expected;
use butrask_steps::encode;
use common::{bytes, examples, repository, Random};
use expected::output;
use std::io::{Read, Write};
use std::process::{Command, Stdio};
use std::time::{Duration, Instant};

const ONE: u64 = 0x3ff0_0000_0000_0000;

/// Runs the program on pieces of input, each written by itself with a short wait after it if there
/// are several.
fn printed<'a>(pieces: impl IntoIterator<Item = &'a [u8]> + Send) -> String {
    let mut child = Command::new(repository().join("crates/trial/out/trial"))
        .stdin(Stdio::piped())
        .stdout(Stdio::piped())
        .spawn()
        .expect("crates/trial/out/trial is there: bin/trial builds it");
    let mut input = child.stdin.take().unwrap();
    let mut text = String::new();
    std::thread::scope(|scope| {
        scope.spawn(move || {
            for (i, piece) in pieces.into_iter().enumerate() {
                if i > 0 {
                    std::thread::sleep(Duration::from_micros(300));
                }
                input.write_all(piece).unwrap();
            }
        });
        child
            .stdout
            .take()
            .unwrap()
            .read_to_string(&mut text)
            .unwrap();
    });
    assert!(child.wait().unwrap().success());
    text
}

/// A gate of real numbers on a qubit.
fn gate(q: u64, [s0, f0, s1, f1]: [f64; 4]) -> Vec<u8> {
    let [s0, f0, s1, f1] = [s0, f0, s1, f1].map(f64::to_bits);
    bytes(&[1, q, s0, 0, f0, 0, s1, 0, f1, 0])
}

/// A step of any kind, most of them well formed, nearly all on the first few qubits so that entries
/// meet.
fn random_step(random: &mut Random, qubits: u64) -> Vec<u8> {
    let small = |random: &mut Random| (random.below(5) as f64 - 2.0).to_bits();
    let q = match random.below(40) {
        0 => 63,
        1 => 64,
        _ => random.below(qubits),
    };
    let mut step = vec![0; 10];
    step[1] = q;
    match random.below(20) {
        0..=10 => {
            step[0] = 1;
            step[2..].fill_with(|| small(random));
        }
        11..=12 => {
            // Roots of a half, rounded, and patterns that are nearly any.
            let root = std::f64::consts::FRAC_1_SQRT_2.to_bits();
            step[0] = 1;
            for i in [2, 4, 6, 8] {
                step[i] = random.pick(&[root, root, root, root | 1 << 63, root + 1]);
            }
            if random.below(4) == 0 {
                step[2 + random.below(8) as usize] = random.next() & !(random.below(2) << 62);
            }
        }
        13..=16 => {
            step[0] = 2;
            step[2] = random.below(2);
            let scales = [
                ONE,
                ONE,
                0x4000_0000_0000_0000,
                ONE + 1,
                ONE + 4095,
                ONE + 4096,
                ONE - 8192,
            ];
            step[3] = random.pick(&scales);
            if random.below(10) == 0 {
                step[3] = random.pick(&[0, 1, 0x7ff0_0000_0000_0000, 0x7ff8_0000_0000_0000]);
            }
        }
        17..=18 => step[0] = 3,
        _ => {
            step[0] = random.below(5);
            step[2 + random.below(8) as usize] = random.below(3);
        }
    }
    bytes(&step)
}

fn name_and_output(name: &str) -> String {
    let path = repository()
        .join("examples")
        .join(name)
        .with_extension("out");
    std::fs::read_to_string(&path).unwrap_or_else(|e| panic!("{}: {e}", path.display()))
}

#[test]
fn each_example_has_the_models_output() {
    assert!(examples().len() >= 6);
    for (name, text) in examples() {
        assert_eq!(
            output(&encode(&text).unwrap()),
            name_and_output(&name),
            "{name}"
        );
    }
}

/// The example of SPECIFICATION 9.3 is the crate's own.
#[test]
fn the_crate_has_the_specifications_example() {
    let of_crate =
        |part: &str| std::fs::read(repository().join("crates/trial").join(part)).unwrap();
    let input = [
        gate(0, [1.0, 1.0, -1.0, 1.0]),
        bytes(&[3, 0, 0, 0, 0, 0, 0, 0, 0, 0]),
    ]
    .concat();
    assert_eq!(of_crate("stdin"), input);
    assert_eq!(of_crate("stdout"), output(&input).into_bytes());
}

#[test]
#[ignore = "needs crates/trial/out/trial"]
fn each_example_prints_its_output() {
    for (name, text) in examples() {
        assert_eq!(
            printed([&encode(&text).unwrap()[..]]),
            name_and_output(&name),
            "{name}"
        );
    }
}

/// What is printed before any step.
const FRESH: &str = "tag 0\n0000000000000000 3ff0000000000000 0000000000000000\n";

#[test]
#[ignore = "needs crates/trial/out/trial"]
fn no_input_prints_the_fresh_state() {
    assert_eq!(printed([&[][..]]), FRESH);
}

/// A folder can be opened as standard input, and no read of it succeeds.
#[test]
#[ignore = "needs crates/trial/out/trial"]
fn a_read_that_fails_ends_the_input() {
    let output = Command::new(repository().join("crates/trial/out/trial"))
        .stdin(std::fs::File::open(repository()).unwrap())
        .output()
        .unwrap();
    assert!(output.status.success());
    assert_eq!(String::from_utf8(output.stdout).unwrap(), FRESH);
    assert!(output.stderr.is_empty());
}

#[test]
#[ignore = "needs crates/trial/out/trial"]
fn stray_bytes_are_one_refused_step() {
    let step = gate(0, [1.0, 1.0, -1.0, 1.0]);
    for stray in 1..80 {
        let alone = "step 1 answer 10 sizes 1 0\ntag 0\n0000000000000000 3ff0000000000000 0000000000000000\n";
        assert_eq!(printed([&step[..stray]]), alone, "{stray} bytes");
        let input = [&step[..], &step[..stray]].concat();
        assert!(printed([&input[..]])
            .starts_with("step 1 answer 0 sizes 1 1\nstep 2 answer 10 sizes 1 1\ntag 0\n"));
    }
}

#[test]
#[ignore = "needs crates/trial/out/trial"]
fn reads_of_any_size_give_the_same() {
    let mut random = Random(1);
    let input: Vec<u8> = (0..12)
        .flat_map(|_| random_step(&mut random, 7))
        .chain([0; 7])
        .collect();
    for size in [1, 3, 79, 80, 81, 159] {
        assert_eq!(
            printed(input.chunks(size)),
            output(&input),
            "{size} bytes a write"
        );
    }
}

#[test]
#[ignore = "needs crates/trial/out/trial"]
fn random_steps_print_what_the_model_does() {
    let mut random = Random(2);
    let mut answers = [0u64; 11];
    for n in 0..400 {
        // With 20 qubits the stores fill up.
        let qubits = if n % 4 == 0 { 20 } else { 7 };
        let count = random.below(160);
        let stray = random.below(80) as usize;
        let input: Vec<u8> = (0..count)
            .flat_map(|_| random_step(&mut random, qubits))
            .chain(vec![0; stray])
            .collect();
        let text = output(&input);
        assert_eq!(printed([&input[..]]), text);
        for line in text.lines().filter(|l| l.starts_with("step ")) {
            answers[line.split(' ').nth(3).unwrap().parse::<usize>().unwrap()] += 1;
        }
    }
    println!("how often each number was the answer: {answers:?}");
    assert!([0, 2, 6, 8, 9, 10].iter().all(|&n| answers[n] > 20));
}

/// 250,000 steps on the entries of five qubits, and stray bytes after them. The gates keep the sum
/// of squares, so that nothing overflows; some steps are refused.
#[test]
#[ignore = "needs crates/trial/out/trial"]
fn a_long_trial_prints_what_the_model_does() {
    let mut random = Random(3);
    let root = std::f64::consts::FRAC_1_SQRT_2;
    let mut input = Vec::new();
    for _ in 0..250_000 {
        let q = random.below(5);
        input.extend(match random.below(12) {
            0..=5 => gate(q, [root, root, -root, root]),
            6..=7 => gate(q, [0.0, 1.0, 0.0, 1.0]),
            8..=9 => gate(q, [1.0, 0.0, -1.0, 0.0]),
            10 => bytes(&[3, q, 0, 0, 0, 0, 0, 0, 0, 0]),
            _ => bytes(&[random.below(5), 64, 0, 0, 0, 0, 0, 0, 0, 0]),
        });
    }
    input.extend([0; 37]);
    let text = printed([&input[..]]);
    assert!(text == output(&input), "the texts differ");
    let last = text.lines().nth(250_000).unwrap();
    assert!(last.starts_with("step 250001 answer 10 sizes "), "{last}");
}

/// 100,000 steps on 512 entries, each gate on another qubit than the one before: a couple of
/// seconds, and a minute at most.
#[test]
#[ignore = "needs crates/trial/out/trial"]
fn a_long_input_is_quick() {
    let mut input = Vec::new();
    for q in 0..9 {
        input.extend(gate(q, [1.0, 1.0, -1.0, 1.0]));
    }
    for i in 9..100_000 {
        input.extend(gate(i % 9, [0.0, 1.0, 0.0, 1.0]));
    }
    let began = Instant::now();
    let text = printed([&input[..]]);
    let took = began.elapsed();
    println!("100,000 steps in {took:?}");
    assert!(took < Duration::from_secs(60));
    let lines: Vec<&str> = text.lines().collect();
    assert_eq!(lines.len(), 100_000 + 1 + 512);
    // The first nine gates double the entries; the others exchange entries that are alike. The last
    // is on qubit 0.
    for (i, line) in lines[..100_000].iter().enumerate() {
        let half = 1 << i.min(8);
        let expected = format!("step {} answer 0 sizes {half} {half}", i + 1);
        assert_eq!(*line, expected);
    }
    assert_eq!(lines[100_000], "tag 0");
    let even_then_odd = (0..512).step_by(2).chain((1..512).step_by(2));
    for (key, line) in even_then_odd.zip(&lines[100_001..]) {
        let expected = format!("{key:016x} 3ff0000000000000 0000000000000000");
        assert_eq!(*line, expected);
    }
}
