//! Large states, on the libraries that the test above this module names: every word as the model
//! has it, and beside the reference.
use super::libraries_for;
use butrask_calls::{Call, Calls, Gate, Side, State, WIDTHS};
use butrask_differential::{compare, reference_is_there, Case, Tally};
use butrask_model::Model;

/// A fresh state in stores of so many records, with calls.
fn fresh(width: u64, records: usize, calls: Vec<Call>) -> Case {
    let words = width as usize + 2;
    let mut front = vec![0; words];
    front[width as usize] = 1.0f64.to_bits();
    front.resize(words * records, 77);
    let state = State::new(width, Side::Left, [1, 0], Some(0));
    Case::new(state, front, vec![78; words * records], calls)
}

/// All calls of the case are accepted, and all sides agree.
fn accepted(case: &Case) {
    for mut library in libraries_for(case) {
        if let Err(difference) = compare::same_words(&mut *library, &mut Model, case) {
            panic!("{}: {difference}", library.name());
        }
        if !reference_is_there() {
            continue;
        }
        let mut tally = Tally::default();
        if let Err(difference) = compare::as_reference(&mut *library, case, &mut tally) {
            panic!("{}: {difference}", library.name());
        }
        let accepted = tally.counts.accepted();
        assert_eq!(accepted, case.calls.len() as u64, "{}", library.name());
    }
}

/// A state that grows to 2,048 entries, of which a measurement leaves half and gates leave two.
#[test]
fn a_large_state() {
    for width in WIDTHS {
        // Eleven qubits, the first and the last of all among them.
        let qubit = |i: u64| i * (64 * width - 1) / 10;
        let spread = |i: u64| Call::PerformU4 {
            qubit: qubit(i),
            gate: Gate::real(1.0, 1.0, -1.0, 1.0),
        };
        let mut calls: Vec<Call> = (0..11).map(spread).collect();
        calls.push(Call::Premeasure { qubit: qubit(4) });
        calls.push(Call::Export);
        calls.push(Call::Measure {
            qubit: qubit(3),
            outcome: true,
            scale: 3.0f64.to_bits(),
        });
        calls.extend((0..11).rev().map(spread));
        let case = fresh(width, 2_048, calls);
        let (mut state, mut lent) = (case.state, case.lent.clone());
        let mut entries = vec![];
        for call in &case.calls {
            state = Model.call(call, state, &mut lent).state;
            entries.push(state.n0 + state.n1);
        }
        assert_eq!(entries[10..14], [2_048, 2_048, 2_048, 1_024]);
        assert_eq!(entries.last(), Some(&2));
        accepted(&case);
    }
}

/// The reference reads a dense list in pieces of 4,096 pairs.
#[test]
fn a_long_dense_list() {
    let list = (0..2 * 9_000u64)
        .map(|i| f64::from_bits(0x3d6f_ffff_ffff_fffe + i * i % 5).to_bits())
        .collect();
    let import = Call::ImportDense {
        width: 1,
        store: Side::Right,
        list,
    };
    let calls = vec![import, Call::Premeasure { qubit: 12 }, Call::Export];
    accepted(&fresh(1, 9_000, calls));
}
