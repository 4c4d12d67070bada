//! The calls. Numbers in brackets are sections of docs/SPECIFICATION.md.
use crate::amplitude::{divided_by, is_finite, is_in_dense_list, is_near_one, norm2};
use crate::amplitude::{of_pair, of_unpaired, New};
use crate::record::{capacity, entries, with_bit, words_of, write, Entry};
use butrask_calls::{call_in_run, Amplitude, Answer, Call, Calls, Gate, Lent, Refusal, Reply};
use butrask_calls::{Side, State, Step, WIDTHS};
use std::collections::{BTreeMap, BTreeSet};

/// The library that the specification describes.
#[derive(Clone, Copy, Debug, Default)]
pub struct Model;

impl Calls for Model {
    fn name(&self) -> &str {
        "model"
    }

    fn call(&mut self, call: &Call, state: State, lent: &mut Lent) -> Reply {
        let (answer, state) = match perform(call, &state, lent) {
            Ok(Done { answer, made }) => (answer, made.unwrap_or(state)),
            // State and words stay as they were (10.3).
            Err(refusal) => (Answer::Refused(refusal), state),
        };
        Reply { answer, state }
    }
}

/// What an accepted call gives: its answer, and the state that it makes, if it makes one.
struct Done {
    answer: Answer,
    made: Option<State>,
}

/// Of a call that makes a state.
fn made(state: State) -> Done {
    Done {
        answer: Answer::Done,
        made: Some(state),
    }
}

/// Of a call that reads.
fn read(answer: Answer) -> Done {
    Done { answer, made: None }
}

/// The meaning of each call.
fn perform(call: &Call, state: &State, lent: &mut Lent) -> Result<Done, Refusal> {
    Ok(match call {
        Call::PerformU4 { qubit, gate } => made(perform_u4(state, *qubit, gate, lent)?),
        Call::Measure {
            qubit,
            outcome,
            scale,
        } => made(measure(state, *qubit, *outcome, *scale, lent)?),
        Call::Premeasure { qubit } => {
            let sums = premeasure(state, *qubit, lent)?;
            read(Answer::Sums(sums.map(f64::to_bits)))
        }
        Call::Fresh { width } => made(fresh(*width, lent)?),
        Call::ImportDense { width, store, list } => made(import_dense(*width, list, *store, lent)?),
        Call::Check => {
            accepted(state, lent, None, &[])?;
            read(Answer::Done)
        }
        Call::Lookup { key } => read(lookup(state, key, lent)?),
        Call::Export => read(export(state, lent)),
        Call::CollapseDelta { qubit, index, gate } => read(Answer::Change(collapse_delta(
            state, *qubit, gate, *index, lent,
        )?)),
        Call::Forecast { qubit, gate } => {
            read(Answer::Change(forecast(state, *qubit, gate, lent)?))
        }
        Call::Run { steps } => run(steps, *state, lent),
        Call::Compare {
            width,
            left_out,
            qubit,
            a,
            b,
        } => read(compare(*width, left_out.then_some(*qubit), a, b)?),
    })
}

/// The entries of part 0 and part 1, in their order.
type Parts = [Vec<Entry>; 2];

/// The number of entries.
fn count(parts: &Parts) -> u64 {
    (parts[0].len() + parts[1].len()) as u64
}

fn sizes(parts: &Parts) -> [u64; 2] {
    [parts[0].len() as u64, parts[1].len() as u64]
}

/// Refuses unless the rule holds.
fn unless(holds: bool, refusal: Refusal) -> Result<(), Refusal> {
    if holds {
        Ok(())
    } else {
        Err(refusal)
    }
}

/// Neither an infinity nor a NaN.
fn finite(pattern: u64) -> bool {
    f64::from_bits(pattern).is_finite()
}

/// 1: the width is not listed.
fn test_width(width: u64) -> Result<(), Refusal> {
    unless(WIDTHS.contains(&width), Refusal::Width)
}

/// 8: a part that the call computes is not finite.
fn test_overflow(new: impl IntoIterator<Item = Amplitude>) -> Result<(), Refusal> {
    unless(new.into_iter().all(is_finite), Refusal::Overflow)
}

/// 9: the records to write exceed the capacity of the store that they go to.
fn test_full(records: u64, width: u64, target: &[u64]) -> Result<(), Refusal> {
    unless(records <= capacity(target, width), Refusal::Full)
}

/// The tests that every call on a state begins with, the first that applies deciding (10.1): 1, 2
/// if the call has a qubit, 3, 4, 5 and 6, where the call's `own` patterns join 6. Gives the
/// entries.
fn accepted(state: &State, lent: &Lent, qubit: Option<u64>, own: &[u64]) -> Result<Parts, Refusal> {
    test_width(state.width)?;
    let qubits = 64 * state.width;
    unless(qubit.is_none_or(|q| q < qubits), Refusal::Qubit)?;
    let front = lent.store(state.front);
    let [n0, n1] = state.sizes().map(u128::from);
    unless(
        n0 + n1 <= u128::from(capacity(front, state.width)),
        Refusal::Count,
    )?;
    let parts = entries(state, front);
    let rises = |part: &Vec<Entry>| part.windows(2).all(|two| two[0].key < two[1].key);
    let keys: BTreeSet<&Vec<u64>> = parts[0].iter().map(|entry| &entry.key).collect();
    unless(
        parts.iter().all(rises) && parts[1].iter().all(|entry| !keys.contains(&entry.key)),
        Refusal::Order,
    )?;
    if let Some(tag) = state.tag {
        unless(
            tag < qubits
                && parts[0].iter().all(|entry| !entry.bit(tag))
                && parts[1].iter().all(|entry| entry.bit(tag)),
            Refusal::WrongSide,
        )?;
    }
    let amplitudes = parts.iter().flatten().flat_map(|entry| entry.amplitude);
    unless(
        amplitudes.chain(own.iter().copied()).all(finite),
        Refusal::NotFinite,
    )?;
    Ok(parts)
}

/// Key 0 with amplitude 1, in the left store: sizes 1 and 0, tag 0 (1.7).
fn fresh(width: u64, lent: &mut Lent) -> Result<State, Refusal> {
    test_width(width)?;
    test_full(1, width, &lent.left)?;
    let only = Entry {
        key: vec![0; width as usize],
        amplitude: [1.0, 0.0].map(f64::to_bits),
    };
    write(&mut lent.left, &[vec![only], vec![]]);
    Ok(State::new(width, Side::Left, [1, 0], Some(0)))
}

/// The amplitude at a key, or that it is absent (5.1).
fn lookup(state: &State, key: &[u64], lent: &Lent) -> Result<Answer, Refusal> {
    let parts = accepted(state, lent, None, &[])?;
    unless(key.len() as u64 == state.width, Refusal::Length)?;
    let found = parts.iter().flatten().find(|entry| entry.key == key);
    Ok(found.map_or(Answer::Absent, |entry| Answer::Found(entry.amplitude)))
}

/// The order of two keys, and the place of the first pair of words that differs, counted from 1, or
/// the width where none does. The bit of a qubit that is left out is clear in both (1.2).
fn compare(width: u64, left_out: Option<u64>, a: &[u64], b: &[u64]) -> Result<Answer, Refusal> {
    test_width(width)?;
    unless(left_out.is_none_or(|q| q < 64 * width), Refusal::Qubit)?;
    let has_width = |key: &[u64]| key.len() as u64 == width;
    unless(has_width(a) && has_width(b), Refusal::Length)?;
    let without = |key: &[u64]| match left_out {
        Some(qubit) => with_bit(key, qubit, false),
        None => key.to_vec(),
    };
    let (a, b) = (without(a), without(b));
    let differs = (0..a.len()).find(|&place| a[place] != b[place]);
    Ok(match differs {
        Some(place) => Answer::Compared {
            order: if a[place] < b[place] { -1 } else { 1 },
            pairs: place as u64 + 1,
        },
        None => Answer::Compared {
            order: 0,
            pairs: width,
        },
    })
}

/// The front records themselves, a part of the store that holds them; an empty part of a state that
/// is refused (7.1).
fn export(state: &State, lent: &Lent) -> Answer {
    let words =
        accepted(state, lent, None, &[]).map_or(0, |parts| words_of(count(&parts), state.width));
    Answer::Exported {
        store: state.front,
        words,
    }
}

fn perform_u4(state: &State, qubit: u64, gate: &Gate, lent: &mut Lent) -> Result<State, Refusal> {
    let mut parts = accepted(state, lent, Some(qubit), &gate.words())?;
    let mut front = state.front;
    // If the tag is not q the records are first repartitioned into the back store (3.2).
    if state.tag != Some(qubit) {
        // 9 for the repartition comes before 8 (3.5).
        let back = lent.store_mut(front.other());
        test_full(count(&parts), state.width, back)?;
        parts = repartitioned(parts, qubit);
        // Where the gate is refused below, these words stay (3.5).
        write(back, &parts);
        front = front.other();
    }
    let new = of_gate(&parts, qubit, gate);
    // Dropped sums are tested too.
    test_overflow(new.iter().flatten().map(|(_, new)| new.amplitude))?;
    let results = new.map(|part| {
        part.into_iter()
            .filter(|(_, new)| new.kept)
            .map(|(key, new)| Entry {
                key,
                amplitude: new.amplitude.patterns(),
            })
            .collect()
    });
    // The results go to the store that is now back, which becomes front (3.4).
    let target = lent.store_mut(front.other());
    test_full(count(&results), state.width, target)?;
    write(target, &results);
    let mut after = *state;
    after.front = front.other();
    after.set_sizes(sizes(&results));
    after.tag = Some(qubit);
    Ok(after)
}

/// In the order of keys, bit clear to part 0, set to part 1 (3.2).
fn repartitioned(parts: Parts, qubit: u64) -> Parts {
    let mut all = parts.concat();
    all.sort_by(|a, b| a.key.cmp(&b.key));
    let (set, clear) = all.into_iter().partition(|entry| entry.bit(qubit));
    [clear, set]
}

/// What a gate gives at keys with the bit clear and at keys with it set, in the order of keys,
/// dropped sums included. A pair x (clear), y (set) gives s0·x + f1·y and f0·x + s1·y, the product
/// with x being the first operand (3.3).
fn of_gate(parts: &Parts, qubit: u64, gate: &Gate) -> [Vec<(Vec<u64>, New)>; 2] {
    let mut pairs: BTreeMap<Vec<u64>, [Option<Amplitude>; 2]> = BTreeMap::new();
    for entry in parts.iter().flatten() {
        let pair = pairs.entry(with_bit(&entry.key, qubit, false)).or_default();
        pair[usize::from(entry.bit(qubit))] = Some(entry.value());
    }
    let mut results = [vec![], vec![]];
    for (clear_key, pair) in pairs {
        let (at_clear, at_set) = match pair {
            [Some(x), Some(y)] => of_pair(gate, false, x, y),
            [Some(x), None] => of_unpaired(gate, false, x),
            [None, Some(y)] => {
                let (at_set, at_clear) = of_unpaired(gate, true, y);
                (at_clear, at_set)
            }
            [None, None] => unreachable!("a pair is made for an entry"),
        };
        results[1].push((with_bit(&clear_key, qubit, true), at_set));
        results[0].push((clear_key, at_clear));
    }
    results
}

/// The sum for an outcome adds `norm2` of matching entries from +0 over part 0, likewise over part
/// 1, and then the two (4.1).
fn premeasure(state: &State, qubit: u64, lent: &Lent) -> Result<[f64; 2], Refusal> {
    let parts = accepted(state, lent, Some(qubit), &[])?;
    Ok([false, true].map(|outcome| {
        let of_part = |part: &Vec<Entry>| {
            let mut sum = 0.0;
            for entry in part.iter().filter(|entry| entry.bit(qubit) == outcome) {
                sum += norm2(entry.value());
            }
            sum
        };
        of_part(&parts[0]) + of_part(&parts[1])
    }))
}

/// Keeps the entries with an outcome, by the tag, in place or copied, and divides them by a scale
/// (4.2, 4.3).
fn measure(
    state: &State,
    qubit: u64,
    outcome: bool,
    scale: u64,
    lent: &mut Lent,
) -> Result<State, Refusal> {
    let parts = accepted(state, lent, Some(qubit), &[scale])?;
    let scale = f64::from_bits(scale);
    let matches = |entry: &Entry| entry.bit(qubit) == outcome;
    let all_match = parts.iter().flatten().all(matches);
    let by_tag = state.tag == Some(qubit);
    // With tag q the entries that match are one part alone.
    let mut staying = parts.map(|part| part.into_iter().filter(matches).collect::<Vec<_>>());
    // In place a scale near 1 divides nothing; copied entries are always divided.
    let in_place = by_tag || all_match;
    if !(in_place && is_near_one(scale)) {
        for entry in staying.iter_mut().flatten() {
            let divided = divided_by(entry.value(), scale);
            test_overflow([divided])?;
            entry.amplitude = divided.patterns();
        }
    }
    let target = if in_place {
        state.front
    } else {
        state.front.other()
    };
    let store = lent.store_mut(target);
    test_full(count(&staying), state.width, store)?;
    // Part 1 alone moves to the start of the store; the words after it stay.
    write(store, &staying);
    let mut after = *state;
    after.front = target;
    after.set_sizes(sizes(&staying));
    Ok(after)
}

/// The pairs whose `norm_inf` is EPS or more become part 0 of the named store, each under its index
/// (6.1).
fn import_dense(width: u64, list: &[u64], store: Side, lent: &mut Lent) -> Result<State, Refusal> {
    test_width(width)?;
    unless(list.iter().copied().all(finite), Refusal::NotFinite)?;
    unless(list.len().is_multiple_of(2), Refusal::Length)?;
    let mut part = vec![];
    for (index, pair) in list.chunks_exact(2).enumerate() {
        let amplitude = [pair[0], pair[1]];
        if is_in_dense_list(Amplitude::from_patterns(amplitude)) {
            let mut key = vec![0; width as usize];
            key[0] = index as u64;
            part.push(Entry { key, amplitude });
        }
    }
    let parts = [part, vec![]];
    let target = lent.store_mut(store);
    test_full(count(&parts), width, target)?;
    write(target, &parts);
    Ok(State::new(width, store, sizes(&parts), None))
}

/// Of entry i mod n, part 0 before part 1: 0 of an empty state, 2 without a partner, else minus the
/// number of dropped sums, the products of entry i being the first operands (5.2).
fn collapse_delta(
    state: &State,
    qubit: u64,
    gate: &Gate,
    index: u64,
    lent: &Lent,
) -> Result<i64, Refusal> {
    let parts = accepted(state, lent, Some(qubit), &gate.words())?;
    if count(&parts) == 0 {
        return Ok(0);
    }
    estimate(&parts.concat(), qubit, gate, index % count(&parts))
}

/// The estimate for an entry of a state that has it.
fn estimate(all: &[Entry], qubit: u64, gate: &Gate, index: u64) -> Result<i64, Refusal> {
    let own = &all[index as usize];
    let bit = own.bit(qubit);
    let partner_key = with_bit(&own.key, qubit, !bit);
    let Some(partner) = all.iter().find(|entry| entry.key == partner_key) else {
        return Ok(2);
    };
    let (at_own, at_partner) = of_pair(gate, bit, own.value(), partner.value());
    test_overflow([at_own.amplitude, at_partner.amplitude])?;
    Ok(-i64::from(!at_own.kept) - i64::from(!at_partner.kept))
}

/// The sum of `collapse_delta` over all entries, halved toward zero (5.3).
fn forecast(state: &State, qubit: u64, gate: &Gate, lent: &Lent) -> Result<i64, Refusal> {
    let all = accepted(state, lent, Some(qubit), &gate.words())?.concat();
    let mut sum = 0;
    for index in 0..all.len() as u64 {
        sum += estimate(&all, qubit, gate, index)?;
    }
    Ok(sum / 2)
}

/// A run performs steps of kinds 1 and 2 in order and stops at the first that is refused; an empty
/// list has its state tested (8.3).
fn run(steps: &[Step], start: State, lent: &mut Lent) -> Done {
    let mut state = start;
    let ran = |done: usize, stopped: Option<Refusal>, state: State| Done {
        answer: Answer::Ran {
            done: done as u64,
            stopped,
        },
        made: Some(state),
    };
    if steps.is_empty() {
        let stopped = accepted(&state, lent, None, &[]).err();
        return ran(0, stopped, state);
    }
    for (done, step) in steps.iter().enumerate() {
        match one_step(step, &state, lent) {
            Ok(next) => state = next,
            Err(refusal) => return ran(done, Some(refusal), state),
        }
    }
    ran(steps.len(), None, state)
}

/// A step that is malformed, or of kind 3, is refused with 10 before anything else is tested (8.1,
/// 8.3).
fn one_step(step: &Step, state: &State, lent: &mut Lent) -> Result<State, Refusal> {
    let call = call_in_run(step).ok_or(Refusal::Step)?;
    let Done { made, .. } = perform(&call, state, lent)?;
    Ok(made.unwrap_or(*state))
}
