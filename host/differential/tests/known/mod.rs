//! What the reference does where it is known to differ, each at the smallest input that we know,
//! and what the libraries that the test above this module names give there. A test fails when the
//! reference no longer does it.
use super::libraries;
use butrask_calls::{Answer, Call, Calls, Gate, Lent, Refusal, Side, State};
use butrask_differential::reference_is_there;
use butrask_reference::{machine, with_memory_limit, Contents, Entry, Machine, Stopped};

/// The reference at width 1 with these parts.
fn reference(tag: Option<u64>, parts: [&[(u64, f64)]; 2]) -> Option<Box<dyn Machine>> {
    if !reference_is_there() {
        return None;
    }
    let mut reference = machine(1)?;
    let parts = parts.map(|part| part.iter().map(|&(key, re)| entry(key, re, 0.0)).collect());
    reference.load(&Contents { parts, tag });
    Some(reference)
}

fn entry(key: u64, re: f64, im: f64) -> Entry {
    Entry {
        key: vec![key],
        amplitude: [re.to_bits(), im.to_bits()],
    }
}

/// What is expected of a call: its answer, and the sizes and tag after it.
type Expected = (Answer, [u64; 2], Option<u64>);

/// What the libraries answer to a call on the same parts, in stores of so many records.
fn libraries_give(
    tag: Option<u64>,
    parts: [&[(u64, f64)]; 2],
    capacity: usize,
    call: Call,
    expected: Expected,
) {
    for mut library in libraries() {
        let given = given(&mut *library, tag, parts, capacity, &call);
        assert_eq!(given, expected, "{}", library.name());
    }
}

fn given(
    library: &mut dyn Calls,
    tag: Option<u64>,
    parts: [&[(u64, f64)]; 2],
    capacity: usize,
    call: &Call,
) -> Expected {
    let records = parts.concat();
    let mut left: Vec<u64> = records
        .iter()
        .flat_map(|(key, re)| [*key, re.to_bits(), 0])
        .collect();
    left.resize(3 * capacity, 0);
    let mut lent = Lent::stores(left, vec![0; 3 * capacity]);
    let sizes = parts.map(|part| part.len() as u64);
    let state = State::new(1, Side::Left, sizes, tag);
    let reply = library.call(call, state, &mut lent);
    (reply.answer, reply.state.sizes(), reply.state.tag)
}

/// The real gate s0, f0, s1, f1.
fn gate([s0, f0, s1, f1]: [f64; 4]) -> Gate {
    Gate::real(s0, f0, s1, f1)
}

fn measure(qubit: u64, outcome: bool, scale: f64) -> Call {
    Call::Measure {
        qubit,
        outcome,
        scale: scale.to_bits(),
    }
}

/// What the standard library says of a chunk size of 0.
fn chunk_of_zero() -> Stopped {
    Stopped("chunk size must be non-zero".to_string())
}

const FRESH: [&[(u64, f64)]; 2] = [&[(0, 1.0)], &[]];
const EMPTY: [&[(u64, f64)]; 2] = [&[], &[]];

#[test]
fn sums_of_an_empty_state_stop() {
    for tag in [None, Some(0), Some(1)] {
        if let Some(mut reference) = reference(tag, EMPTY) {
            assert_eq!(reference.premeasure(0), Err(chunk_of_zero()));
        }
        let call = Call::Premeasure { qubit: 0 };
        let expected = (Answer::Sums([0, 0]), [0, 0], tag);
        libraries_give(tag, EMPTY, 1, call, expected);
    }
}

#[test]
fn measuring_an_empty_state_by_another_qubit_stops() {
    for tag in [None, Some(1)] {
        for scale in [1.0, 2.0] {
            if let Some(mut reference) = reference(tag, EMPTY) {
                let stopped = reference.measure(0, false, f64::to_bits(scale));
                assert_eq!(stopped, Err(chunk_of_zero()));
            }
            let expected = (Answer::Done, [0, 0], tag);
            libraries_give(tag, EMPTY, 1, measure(0, false, scale), expected);
        }
    }
}

#[test]
fn a_measurement_by_the_tag_that_leaves_none_stops_if_it_divides() {
    for (scale, stops) in [(2.0, true), (1.0, false)] {
        if let Some(mut reference) = reference(Some(0), FRESH) {
            let expected = if stops { Err(chunk_of_zero()) } else { Ok(()) };
            assert_eq!(reference.measure(0, true, f64::to_bits(scale)), expected);
        }
        let expected = (Answer::Done, [0, 0], Some(0));
        libraries_give(Some(0), FRESH, 1, measure(0, true, scale), expected);
    }
}

/// 10·1e308 − 10·1e308: both products are infinite, the sum is a NaN.
#[test]
fn a_nan_is_dropped() {
    let parts: [&[(u64, f64)]; 2] = [&[(0, 10.0)], &[(1, 10.0)]];
    let gate = gate([1e308, 0.0, 0.0, -1e308]);
    if let Some(mut reference) = reference(Some(0), parts) {
        assert_eq!(reference.collapse_delta(0, &gate, 0), Ok(-2));
        assert_eq!(reference.perform_u4(0, &gate), Ok(()));
        assert_eq!(reference.contents().parts, [vec![], vec![]]);
    }
    let refused = (Answer::Refused(Refusal::Overflow), [1, 1], Some(0));
    let call = Call::PerformU4 { qubit: 0, gate };
    libraries_give(Some(0), parts, 2, call, refused);
    for index in [0, 1] {
        let qubit = 0;
        let call = Call::CollapseDelta { qubit, gate, index };
        libraries_give(Some(0), parts, 2, call, refused);
    }
    let call = Call::Forecast { qubit: 0, gate };
    libraries_give(Some(0), parts, 2, call, refused);
}

#[test]
fn an_infinity_is_written() {
    let parts: [&[(u64, f64)]; 2] = [&[(0, 2.0)], &[]];
    let gate = gate([f64::MAX, 0.0, 0.0, 0.0]);
    if let Some(mut reference) = reference(Some(0), parts) {
        assert_eq!(reference.perform_u4(0, &gate), Ok(()));
        let infinite = entry(0, f64::INFINITY, 0.0);
        assert_eq!(reference.contents().parts[0], [infinite]);
    }
    let call = Call::PerformU4 { qubit: 0, gate };
    let refused = (Answer::Refused(Refusal::Overflow), [1, 0], Some(0));
    libraries_give(Some(0), parts, 2, call, refused);
}

#[test]
fn a_scale_of_zero_divides() {
    if let Some(mut reference) = reference(Some(0), FRESH) {
        assert_eq!(reference.measure(0, false, 0.0f64.to_bits()), Ok(()));
        let [re, im] = reference.contents().parts[0][0]
            .amplitude
            .map(f64::from_bits);
        assert!(re == f64::INFINITY && im.is_nan());
    }
    let refused = (Answer::Refused(Refusal::Overflow), [1, 0], Some(0));
    libraries_give(Some(0), FRESH, 1, measure(0, false, 0.0), refused);
}

/// The reference clears the state where 9 is given (SPECIFICATION 10.3).
#[test]
fn without_memory_the_state_is_cleared() {
    let gate = gate([1.0, 1.0, -1.0, 1.0]);
    let record = 24;
    // By the tag there is no room for the results, by another qubit none for the repartition.
    for (qubit, bytes, capacity) in [(0, record, 1), (1, 0, 0)] {
        if let Some(mut reference) = reference(Some(0), FRESH) {
            let performed = with_memory_limit(bytes, || reference.perform_u4(qubit, &gate));
            assert_eq!(performed, Ok(()));
            let cleared = Contents {
                tag: Some(qubit),
                ..Contents::default()
            };
            assert_eq!(reference.contents(), cleared);
        }
        for mut library in libraries() {
            let lent = Lent::stores(vec![0, 1.0f64.to_bits(), 0], vec![5; 3 * capacity]);
            let state = State::new(1, Side::Left, [1, 0], Some(0));
            let call = Call::PerformU4 { qubit, gate };
            let mut after = lent.clone();
            let reply = library.call(&call, state, &mut after);
            assert_eq!(reply.answer, Answer::Refused(Refusal::Full));
            assert_eq!(reply.state, state);
            assert_eq!(after, lent);
        }
    }
}

#[test]
fn a_qubit_past_the_width_stops() {
    if let Some(mut reference) = reference(Some(0), FRESH) {
        assert!(reference.premeasure(63).is_ok());
        assert!(reference.premeasure(64).is_err());
    }
    let refused = (Answer::Refused(Refusal::Qubit), [1, 0], Some(0));
    let call = Call::Premeasure { qubit: 64 };
    libraries_give(Some(0), FRESH, 1, call, refused);
}

#[test]
fn a_key_in_both_parts_is_not_noticed() {
    let parts: [&[(u64, f64)]; 2] = [&[(0, 1.0)], &[(0, 2.0)]];
    if let Some(reference) = reference(None, parts) {
        let first = [1.0f64.to_bits(), 0];
        assert_eq!(reference.lookup(&[0]), Ok(Some(first)));
    }
    let refused = (Answer::Refused(Refusal::Order), [1, 1], None);
    let call = Call::Lookup { key: vec![0] };
    libraries_give(None, parts, 2, call, refused);
}

#[test]
fn an_infinite_amplitude_is_not_noticed() {
    let parts: [&[(u64, f64)]; 2] = [&[(0, f64::INFINITY)], &[]];
    if let Some(mut reference) = reference(Some(0), parts) {
        let infinity = f64::INFINITY.to_bits();
        assert_eq!(reference.premeasure(0), Ok([infinity, 0]));
    }
    let refused = (Answer::Refused(Refusal::NotFinite), [1, 0], Some(0));
    let call = Call::Premeasure { qubit: 0 };
    libraries_give(Some(0), parts, 1, call, refused);
}

/// No difference: sums may be infinite (SPECIFICATION 4.1).
#[test]
fn sums_may_be_infinite() {
    let parts: [&[(u64, f64)]; 2] = [&[(0, 1e200)], &[]];
    let sums = [f64::INFINITY.to_bits(), 0];
    if let Some(mut reference) = reference(Some(0), parts) {
        assert_eq!(reference.premeasure(0), Ok(sums));
    }
    let expected = (Answer::Sums(sums), [1, 0], Some(0));
    let call = Call::Premeasure { qubit: 0 };
    libraries_give(Some(0), parts, 1, call, expected);
}
