//! The cases a to m of SPECIFICATION 12.1, worked by hand from its text, on the libraries that the
//! test above this module names and on the reference.
use super::libraries;
use butrask_calls::{Answer, Call, Calls, Gate, Lent, Refusal, Side, State};
use butrask_differential::reference_is_there;
use butrask_model::entries;
use butrask_reference::{machine, Contents, Entry, Machine};

/// Key and real amplitude.
type Real = (u64, f64);

/// A state of width 1 with real amplitudes.
#[derive(Clone, Debug)]
struct Start {
    tag: Option<u64>,
    parts: [Vec<Real>; 2],
    /// How many records the stores hold.
    front: usize,
    back: usize,
}

impl Start {
    fn new(tag: Option<u64>, part0: &[Real], part1: &[Real]) -> Start {
        Start {
            tag,
            parts: [part0.to_vec(), part1.to_vec()],
            front: 8,
            back: 8,
        }
    }

    fn fresh() -> Start {
        Start::new(Some(0), &[(0, 1.0)], &[])
    }

    fn room(self, front: usize, back: usize) -> Start {
        Start {
            front,
            back,
            ..self
        }
    }
}

/// What is expected after the calls: their answers, the tag and the parts.
struct Expected<'a> {
    answers: &'a [Answer],
    tag: Option<u64>,
    parts: [&'a [Real]; 2],
}

/// The contents with these parts, whose imaginary parts are +0.
fn contents(parts: [&[Real]; 2], tag: Option<u64>) -> Contents {
    Contents {
        parts: parts.map(|part| {
            part.iter()
                .map(|(key, re)| Entry {
                    key: vec![*key],
                    amplitude: [re.to_bits(), 0],
                })
                .collect()
        }),
        tag,
    }
}

/// Performs the calls on a library, in a left store that is front, and compares the outcome.
fn on_library(library: &mut dyn Calls, start: &Start, calls: &[Call], expected: &Expected) {
    let records: Vec<Real> = start.parts.concat();
    let mut left: Vec<u64> = records
        .iter()
        .flat_map(|(key, re)| [*key, re.to_bits(), 0])
        .collect();
    assert!(left.len() <= 3 * start.front);
    left.resize(3 * start.front, 77);
    let mut lent = Lent::stores(left, vec![78; 3 * start.back]);
    let sizes = [start.parts[0].len() as u64, start.parts[1].len() as u64];
    let mut state = State::new(1, Side::Left, sizes, start.tag);
    let mut answers = vec![];
    for call in calls {
        let reply = library.call(call, state, &mut lent);
        state = reply.state;
        answers.push(reply.answer);
    }
    assert_eq!(answers, expected.answers);
    let got = Contents {
        parts: entries(&state, lent.store(state.front)).map(|part| {
            part.into_iter()
                .map(|entry| Entry {
                    key: entry.key,
                    amplitude: entry.amplitude,
                })
                .collect()
        }),
        tag: state.tag,
    };
    assert_eq!(
        got,
        contents(expected.parts, expected.tag),
        "{}",
        library.name()
    );
}

fn on_libraries(start: &Start, calls: &[Call], expected: &Expected) {
    for mut library in libraries() {
        on_library(&mut *library, start, calls, expected);
    }
}

/// Performs the calls on the reference and compares the outcome.
fn on_reference(start: &Start, calls: &[Call], expected: &Expected) {
    if !reference_is_there() {
        return;
    }
    let mut reference = machine(1).unwrap();
    reference.load(&contents([&start.parts[0], &start.parts[1]], start.tag));
    let answers: Vec<Answer> = calls.iter().map(|c| ask(&mut *reference, c)).collect();
    assert_eq!(answers, expected.answers);
    let got = reference.contents();
    assert_eq!(got, contents(expected.parts, expected.tag), "reference");
}

fn ask(reference: &mut dyn Machine, call: &Call) -> Answer {
    match call {
        Call::PerformU4 { qubit, gate } => {
            reference.perform_u4(*qubit, gate).unwrap();
            Answer::Done
        }
        Call::Measure {
            qubit,
            outcome,
            scale,
        } => {
            reference.measure(*qubit, *outcome, *scale).unwrap();
            Answer::Done
        }
        Call::Premeasure { qubit } => Answer::Sums(reference.premeasure(*qubit).unwrap()),
        Call::ImportDense { list, .. } => {
            reference.import_dense(list.as_chunks().0).unwrap();
            Answer::Done
        }
        Call::CollapseDelta { qubit, gate, index } => {
            Answer::Change(reference.collapse_delta(*qubit, gate, *index).unwrap())
        }
        _ => panic!("the edges have no {}", call.name()),
    }
}

/// All sides.
fn check(start: &Start, calls: &[Call], expected: &Expected) {
    on_libraries(start, calls, expected);
    on_reference(start, calls, expected);
}

/// The real gate s0, f0, s1, f1.
fn gate([s0, f0, s1, f1]: [f64; 4]) -> Gate {
    Gate::real(s0, f0, s1, f1)
}

fn perform(qubit: u64, parts: [f64; 4]) -> Call {
    Call::PerformU4 {
        qubit,
        gate: gate(parts),
    }
}

fn measure(qubit: u64, outcome: bool, scale: f64) -> Call {
    Call::Measure {
        qubit,
        outcome,
        scale: scale.to_bits(),
    }
}

fn estimate(qubit: u64, parts: [f64; 4], index: u64) -> Call {
    Call::CollapseDelta {
        qubit,
        gate: gate(parts),
        index,
    }
}

const SPREADS: [f64; 4] = [1.0, 1.0, -1.0, 1.0];
const STAYS: [f64; 4] = [1.0, 0.0, 1.0, 0.0];
const ADDS_SET: [f64; 4] = [1.0, 0.0, 1.0, 1.0];

fn pow2(exponent: i32) -> f64 {
    2.0f64.powi(exponent)
}

#[test]
fn a_an_unpaired_entry_gives_a_zero_too() {
    let expected = Expected {
        answers: &[Answer::Done],
        tag: Some(0),
        parts: [&[(0, 1.0)], &[(1, 0.0)]],
    };
    check(&Start::fresh(), &[perform(0, STAYS)], &expected);
}

#[test]
fn b_a_paired_zero_is_dropped() {
    let expected = Expected {
        answers: &[Answer::Done; 2],
        tag: Some(0),
        parts: [&[(0, 1.0)], &[]],
    };
    check(
        &Start::fresh(),
        &[perform(0, STAYS), perform(0, STAYS)],
        &expected,
    );
}

#[test]
fn c_spread_twice() {
    let expected = Expected {
        answers: &[Answer::Done; 2],
        tag: Some(0),
        parts: [&[(0, 2.0)], &[]],
    };
    check(
        &Start::fresh(),
        &[perform(0, SPREADS), perform(0, SPREADS)],
        &expected,
    );
}

/// The state of case d, or of case e with 2 for 1.
fn nearly_opposite(sum: f64) -> Start {
    Start::new(Some(0), &[(0, pow2(40))], &[(1, sum - pow2(40))])
}

#[test]
fn d_a_sum_of_exactly_eps_is_dropped() {
    let expected = Expected {
        answers: &[Answer::Done],
        tag: Some(0),
        parts: [&[], &[(1, 1.0 - pow2(40))]],
    };
    check(&nearly_opposite(1.0), &[perform(0, ADDS_SET)], &expected);
}

#[test]
fn d_estimates_judge_by_their_own_entry() {
    let expected = Expected {
        answers: &[Answer::Change(-1), Answer::Change(0)],
        tag: Some(0),
        parts: [&[(0, pow2(40))], &[(1, 1.0 - pow2(40))]],
    };
    let calls = [estimate(0, ADDS_SET, 0), estimate(0, ADDS_SET, 1)];
    check(&nearly_opposite(1.0), &calls, &expected);
}

#[test]
fn e_twice_eps_is_kept() {
    let expected = Expected {
        answers: &[Answer::Done],
        tag: Some(0),
        parts: [&[(0, 2.0)], &[(1, 2.0 - pow2(40))]],
    };
    check(&nearly_opposite(2.0), &[perform(0, ADDS_SET)], &expected);
}

#[test]
fn f_a_dense_part_of_eps_is_kept() {
    let list = vec![0x3d70_0000_0000_0000, 0, 0x3d6f_ffff_ffff_ffff, 0];
    let expected = Expected {
        answers: &[Answer::Done],
        tag: None,
        parts: [&[(0, pow2(-40))], &[]],
    };
    let call = Call::ImportDense {
        width: 1,
        store: Side::Left,
        list,
    };
    check(&Start::fresh(), &[call], &expected);
}

/// Keys 0 and 1 with amplitude 1, by qubit 0.
fn both_ones() -> Start {
    Start::new(Some(0), &[(0, 1.0)], &[(1, 1.0)])
}

#[test]
fn g_a_scale_near_one_does_not_divide_by_the_tag() {
    let expected = Expected {
        answers: &[Answer::Done],
        tag: Some(0),
        parts: [&[], &[(1, 1.0)]],
    };
    check(
        &both_ones(),
        &[measure(0, true, 1.0 + pow2(-41))],
        &expected,
    );
}

#[test]
fn h_copied_entries_are_always_divided() {
    let start = Start::new(None, &[(0, 1.0), (1, 1.0)], &[]);
    let expected = Expected {
        answers: &[Answer::Done],
        tag: None,
        parts: [&[(1, 1.0 - pow2(-41))], &[]],
    };
    check(&start, &[measure(0, true, 1.0 + pow2(-41))], &expected);
}

#[test]
fn i_a_scale_of_one_and_eps_divides() {
    let expected = Expected {
        answers: &[Answer::Done],
        tag: Some(0),
        parts: [&[], &[(1, 1.0 - pow2(-40))]],
    };
    check(
        &both_ones(),
        &[measure(0, true, 1.0 + pow2(-40))],
        &expected,
    );
}

#[test]
fn j_estimates_of_a_fresh_and_of_an_empty_state() {
    for qubit in [0, 1, 31, 63] {
        let expected = Expected {
            answers: &[Answer::Change(2); 2],
            tag: Some(0),
            parts: [&[(0, 1.0)], &[]],
        };
        let calls = [estimate(qubit, SPREADS, 0), estimate(qubit, STAYS, 7)];
        check(&Start::fresh(), &calls, &expected);
    }
    let empty = Start::new(Some(0), &[], &[]);
    let expected = Expected {
        answers: &[Answer::Change(0)],
        tag: Some(0),
        parts: [&[], &[]],
    };
    check(&empty, &[estimate(0, SPREADS, 3)], &expected);
}

#[test]
fn k_the_last_qubit() {
    let expected = Expected {
        answers: &[Answer::Done],
        tag: Some(63),
        parts: [&[(0, 1.0)], &[(1 << 63, 1.0)]],
    };
    check(&Start::fresh(), &[perform(63, SPREADS)], &expected);
    let refused = Expected {
        answers: &[Answer::Refused(Refusal::Qubit)],
        tag: Some(0),
        parts: [&[(0, 1.0)], &[]],
    };
    on_libraries(&Start::fresh(), &[perform(64, SPREADS)], &refused);
}

#[test]
fn l_a_back_store_of_one_record_is_full() {
    let refused = Expected {
        answers: &[Answer::Refused(Refusal::Full)],
        tag: Some(0),
        parts: [&[(0, 1.0)], &[]],
    };
    let start = Start::fresh().room(2, 1);
    on_libraries(&start, &[perform(0, SPREADS)], &refused);
}

#[test]
fn m_by_another_qubit_the_results_go_to_the_front_store() {
    let expected = Expected {
        answers: &[Answer::Done],
        tag: Some(1),
        parts: [&[(0, 1.0)], &[(2, 1.0)]],
    };
    let start = Start::fresh().room(2, 1);
    check(&start, &[perform(1, SPREADS)], &expected);
}

/// The example of the program `trial`.
#[test]
fn sums_after_a_spread() {
    let one = 1.0f64.to_bits();
    let expected = Expected {
        answers: &[Answer::Done, Answer::Sums([one, one])],
        tag: Some(0),
        parts: [&[(0, 1.0)], &[(1, 1.0)]],
    };
    let calls = [perform(0, SPREADS), Call::Premeasure { qubit: 0 }];
    check(&Start::fresh(), &calls, &expected);
}
