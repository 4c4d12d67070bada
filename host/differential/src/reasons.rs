//! Whether a call on an accepted state has to be refused, told without a model.
//!
//! The rows 1, 2, 6 and 7 of the table (SPECIFICATION 10.1) are read off the call, 8 off what the
//! reference's own operations give, and 9 off the sizes that the reference gets. 3, 4 and 5 never
//! apply to an accepted state, and 10 is told apart before.
use crate::words::{bit, is_finite, with_bit};
use butrask_calls::{Call, Gate, Kind, Refusal, WIDTHS};
use butrask_reference::{gate_sums, machine, Contents};
use std::collections::BTreeMap;

/// What a library was lent: the width, and the numbers of records that the stores hold at it.
pub struct Room {
    pub width: u64,
    pub front: usize,
    pub back: usize,
    /// The capacity of the store that the call itself names, at the width that it names.
    pub named: usize,
}

/// Why a call that is no run has to be refused: the first that applies, down the table; but a gate
/// tests 9 for its repartition before 8 (SPECIFICATION 10.1, 3.5).
pub fn reason(call: &Call, before: &Contents, room: &Room) -> Option<Refusal> {
    if let Some(row) = row_of_call(call, room.width) {
        Some(row)
    } else if repartition_is_full(call, before, room) {
        Some(Refusal::Full)
    } else if overflows(call, before, room.width) {
        Some(Refusal::Overflow)
    } else if result_is_full(call, before, room) {
        Some(Refusal::Full)
    } else {
        None
    }
}

/// The first of 1, 2, 6 and 7 that applies to what the call brings with it.
fn row_of_call(call: &Call, width: u64) -> Option<Refusal> {
    let own_width = call.number_of(Kind::Width).unwrap_or(width);
    let qubit = match call {
        // It is not looked at.
        Call::Compare {
            left_out: false, ..
        } => 0,
        _ => call.number_of(Kind::Qubit).unwrap_or(0),
    };
    let floats = match call {
        Call::ImportDense { list, .. } => list.clone(),
        Call::PerformU4 { gate, .. }
        | Call::Forecast { gate, .. }
        | Call::CollapseDelta { gate, .. } => gate.words().to_vec(),
        Call::Measure { scale, .. } => vec![*scale],
        _ => vec![],
    };
    let wrong_length = match call {
        Call::Lookup { key } => key.len() as u64 != width,
        Call::ImportDense { list, .. } => list.len() % 2 == 1,
        Call::Compare { a, b, .. } => [a, b].iter().any(|key| key.len() as u64 != own_width),
        _ => false,
    };
    if !WIDTHS.contains(&own_width) {
        Some(Refusal::Width)
    } else if qubit >= 64 * own_width {
        Some(Refusal::Qubit)
    } else if !floats.iter().all(|&pattern| is_finite(pattern)) {
        Some(Refusal::NotFinite)
    } else if wrong_length {
        Some(Refusal::Length)
    } else {
        None
    }
}

/// A gate by another qubit than the tag first needs room for all records in the back store.
fn repartition_is_full(call: &Call, before: &Contents, room: &Room) -> bool {
    matches!(call, Call::PerformU4 { qubit, .. } if before.tag != Some(*qubit))
        && count(before) > room.back
}

/// Whether what the reference gets is more than the store holds that it has to go to.
fn result_is_full(call: &Call, before: &Contents, room: &Room) -> bool {
    let after = || count(&result(call, before, room.width));
    match call {
        Call::Fresh { .. } => room.named < 1,
        Call::ImportDense { .. } => after() > room.named,
        Call::PerformU4 { qubit, .. } if before.tag == Some(*qubit) => after() > room.back,
        Call::PerformU4 { .. } => after() > room.front,
        Call::Measure { qubit, .. } if before.tag != Some(*qubit) => {
            let after = after();
            after != count(before) && after > room.back
        }
        _ => false,
    }
}

/// Whether a new part is not finite, dropped ones included.
fn overflows(call: &Call, before: &Contents, width: u64) -> bool {
    match call {
        Call::PerformU4 { qubit, gate } => pairs(before, *qubit)
            .values()
            .any(|pair| pair_overflows(gate, pair)),
        Call::Measure { .. } => !all_finite(&result(call, before, width)),
        // An estimate computes what the gate would from this entry and its partner, if there is
        // one.
        Call::CollapseDelta { qubit, gate, index } if count(before) > 0 => {
            let all = before.parts.concat();
            let own = &all[(index % all.len() as u64) as usize];
            let pair = pairs(before, *qubit)[&with_bit(&own.key, *qubit, false)];
            is_whole(&pair) && pair_overflows(gate, &pair)
        }
        Call::Forecast { qubit, gate } => pairs(before, *qubit)
            .values()
            .any(|pair| is_whole(pair) && pair_overflows(gate, pair)),
        _ => false,
    }
}

/// The amplitudes at a key with the bit clear and at the one with it set.
type Pair = [Option<[u64; 2]>; 2];

/// All pairs, under their keys with the bit clear.
fn pairs(contents: &Contents, qubit: u64) -> BTreeMap<Vec<u64>, Pair> {
    let mut pairs: BTreeMap<Vec<u64>, Pair> = BTreeMap::new();
    for entry in contents.parts.iter().flatten() {
        let pair = pairs.entry(with_bit(&entry.key, qubit, false)).or_default();
        pair[usize::from(bit(&entry.key, qubit))] = Some(entry.amplitude);
    }
    pairs
}

fn is_whole(pair: &Pair) -> bool {
    pair.iter().all(Option::is_some)
}

fn pair_overflows(gate: &Gate, pair: &Pair) -> bool {
    let sums = gate_sums(gate, pair[0], pair[1]);
    !sums.as_flattened().iter().all(|&part| is_finite(part))
}

/// What the reference holds after a call; where it stops, nothing.
fn result(call: &Call, before: &Contents, width: u64) -> Contents {
    let width = call.number_of(Kind::Width).unwrap_or(width);
    let mut machine = machine(width).expect("the reference is there and has the width");
    let stopped = match call {
        Call::PerformU4 { qubit, gate } => {
            machine.load(before);
            machine.perform_u4(*qubit, gate)
        }
        Call::Measure {
            qubit,
            outcome,
            scale,
        } => {
            machine.load(before);
            machine.measure(*qubit, *outcome, *scale)
        }
        Call::ImportDense { list, .. } => machine.import_dense(list.as_chunks().0),
        _ => Ok(()),
    };
    stopped.map_or_else(|_| Contents::default(), |()| machine.contents())
}

fn count(contents: &Contents) -> usize {
    contents.parts[0].len() + contents.parts[1].len()
}

fn all_finite(contents: &Contents) -> bool {
    let mut all = contents.parts.iter().flatten();
    all.all(|entry| entry.amplitude.iter().all(|&pattern| is_finite(pattern)))
}
