//! All small states: up to three entries over the keys 0 to 3 of width 1, every amplitude of a
//! short list, every split into parts and every tag that allows it, with every call of a list; and
//! all comparisons of keys of two words over a short list.
use crate::Case;
use butrask_calls::{Call, Gate, Lent, Side, State, WIDTHS};

/// Amplitudes: 1, −1, −0, i, 2^40 and 1 − 2^40. Some sums vanish, and that of the last two is 2^-40
/// of one of them exactly.
const AMPLITUDES: [[f64; 2]; 6] = [
    [1.0, 0.0],
    [-1.0, 0.0],
    [-0.0, 0.0],
    [0.0, 1.0],
    [1_099_511_627_776.0, 0.0],
    [-1_099_511_627_775.0, 0.0],
];

/// Qubits that the keys have and one that they do not have.
const QUBITS: [u64; 3] = [0, 1, 63];

/// The cases. Each has one call.
pub fn cases() -> impl Iterator<Item = Case> {
    let calls = calls();
    states().flat_map(move |start| with_each(start, &calls))
}

/// The states with left and right exchanged: every gate, every measurement and an export.
pub fn mirrored_cases() -> impl Iterator<Item = Case> {
    let names_a_store = |call: &Call| {
        matches!(
            call,
            Call::PerformU4 { .. } | Call::Measure { .. } | Call::Export
        )
    };
    let calls: Vec<Call> = calls().into_iter().filter(names_a_store).collect();
    states().flat_map(move |start| with_each(mirrored(start), &calls))
}

fn mirrored(mut case: Case) -> Case {
    case.state.front = case.state.front.other();
    std::mem::swap(&mut case.lent.left, &mut case.lent.right);
    case
}

/// States of up to two entries in stores that are just full, with room for one record more, and
/// with less room than a call needs: every gate and every measurement.
pub fn tight_cases() -> impl Iterator<Item = Case> {
    let writes = |call: &Call| matches!(call, Call::PerformU4 { .. } | Call::Measure { .. });
    let calls: Vec<Call> = calls().into_iter().filter(writes).collect();
    let entries = |start: &Case| start.state.n0 + start.state.n1;
    let few = states().filter(move |start| entries(start) <= 2);
    few.flat_map(move |start| {
        let used = 3 * entries(&start) as usize;
        let rooms = [0, 3, 5].into_iter().flat_map(move |spare| {
            let lengths = [0, 2, 3, 6, 9, 12].into_iter();
            lengths.map(move |back| (used + spare, back))
        });
        rooms.map(move |(front, back)| {
            let mut tight = start.clone();
            tight.lent.left.truncate(front);
            tight.lent.right.truncate(back);
            tight
        })
    })
    .flat_map(move |start| with_each(start, &calls))
}

/// Dense lists of up to two pairs over a few floats about 2^-40.
pub fn dense_cases() -> impl Iterator<Item = Case> {
    const EPS: u64 = 0x3d70_0000_0000_0000;
    let parts = [0, 1 << 63, EPS - 1, EPS, EPS + 1, EPS | 1 << 63];
    let start = state(&[], 0, 0, None);
    let lists = (0..=4).flat_map(move |length| {
        (0..parts.len().pow(length)).map(move |choice| {
            let place = |i| choice / parts.len().pow(i) % parts.len();
            (0..length).map(|i| parts[place(i)]).collect::<Vec<u64>>()
        })
    });
    let imports = lists.map(|list| Call::ImportDense {
        width: WIDTHS[0],
        store: Side::Right,
        list,
    });
    imports.flat_map(move |import| with_each(start.clone(), &[import]))
}

/// Comparisons of every two keys of width 2 over a few words, without a qubit that is left out and
/// with each of a list, the first that is refused among them.
pub fn comparison_cases() -> impl Iterator<Item = Case> {
    const WORDS: [u64; 7] = [0, 1, 2, 3, 1 << 63, 1 << 63 | 1, u64::MAX];
    const LEFT_OUT: [Option<u64>; 7] = [
        None,
        Some(0),
        Some(1),
        Some(63),
        Some(64),
        Some(127),
        Some(128),
    ];
    let start = state(&[], 0, 0, None);
    let key = |i: usize| vec![WORDS[i / WORDS.len()], WORDS[i % WORDS.len()]];
    let keys = WORDS.len().pow(2);
    (0..keys * keys).flat_map(move |choice| {
        let with = |qubit: Option<u64>| Call::Compare {
            width: WIDTHS[1],
            left_out: qubit.is_some(),
            qubit: qubit.unwrap_or(u64::MAX),
            a: key(choice / keys),
            b: key(choice % keys),
        };
        with_each(start.clone(), &LEFT_OUT.map(with))
    })
}

/// The state with each of the calls alone.
fn with_each(start: Case, calls: &[Call]) -> Vec<Case> {
    calls.iter().map(|call| start.with_call(call)).collect()
}

/// The states, without calls, in stores of nine records and a stray word.
pub fn states() -> impl Iterator<Item = Case> {
    let keys = (0..1u64 << 4).filter(|set| set.count_ones() <= 3);
    keys.flat_map(|set| {
        let keys: Vec<u64> = (0..4).filter(|key| set >> key & 1 == 1).collect();
        let amplitudes = AMPLITUDES.len().pow(keys.len() as u32);
        (0..amplitudes).flat_map(move |choice| {
            let keys = keys.clone();
            splits(&keys)
                .into_iter()
                .map(move |(set, tag)| state(&keys, choice, set, tag))
        })
    })
}

/// Which of the keys go to part 1, as bits by their place, and the tag.
fn splits(keys: &[u64]) -> Vec<(u64, Option<u64>)> {
    let untagged = (0..1 << keys.len()).map(|set| (set, None));
    let tagged = QUBITS.into_iter().map(|tag| {
        let set = keys
            .iter()
            .rev()
            .fold(0, |set, key| set << 1 | key >> tag & 1);
        (set, Some(tag))
    });
    untagged.chain(tagged).collect()
}

fn state(keys: &[u64], choice: usize, in_part_1: u64, tag: Option<u64>) -> Case {
    let mut parts = [vec![], vec![]];
    let mut choice = choice;
    for (place, key) in keys.iter().enumerate() {
        let [re, im] = AMPLITUDES[choice % AMPLITUDES.len()].map(f64::to_bits);
        choice /= AMPLITUDES.len();
        parts[(in_part_1 >> place & 1) as usize].extend([*key, re, im]);
    }
    let sizes = [parts[0].len() as u64 / 3, parts[1].len() as u64 / 3];
    let mut left = parts.concat();
    left.resize(28, 0xaaaa);
    Case {
        state: State::new(WIDTHS[0], Side::Left, sizes, tag),
        lent: Lent::stores(left, vec![0xbbbb; 28]),
        calls: vec![],
    }
}

fn calls() -> Vec<Call> {
    let gates = [
        Gate::real(1.0, 1.0, -1.0, 1.0),
        Gate::real(1.0, 0.0, 1.0, 1.0),
        Gate::real(0.0, 1.0, 0.0, 1.0),
        Gate::of([0.0, 1.0, 0.0, 0.0, 0.0, -1.0, 1.0, 0.0].map(f64::to_bits)),
    ];
    let mut calls = vec![Call::Check, Call::Export];
    calls.extend((0..5).map(|key| Call::Lookup { key: vec![key] }));
    for qubit in QUBITS {
        calls.push(Call::Premeasure { qubit });
        for scale in [2.0, 1.0 + 0.5f64.powi(41), 0.0] {
            for outcome in [false, true] {
                calls.push(Call::Measure {
                    qubit,
                    outcome,
                    scale: f64::to_bits(scale),
                });
            }
        }
        for gate in gates {
            calls.push(Call::PerformU4 { qubit, gate });
            calls.push(Call::Forecast { qubit, gate });
            calls.extend((0..3).map(|index| Call::CollapseDelta { qubit, gate, index }));
        }
    }
    calls
}
