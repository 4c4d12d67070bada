//! Bad states and bad calls.
//!
//! [`damaged`] breaks a sound case so that one row of the table (SPECIFICATION 10.1), or the first
//! of several, is known to apply, and [`refused_as_expected`] tests a library on it. [`broken`]
//! breaks a case in any way, and nothing is known of the answer. [`lengthened`] lends a call
//! slices of wrong lengths.
use crate::boundary::{on_bytes, OnBytes};
use crate::generate::{self, NOT_FINITE};
use crate::stay;
use crate::words::{bit, with_bit};
use crate::{Case, Difference, Random};
use butrask_calls::{
    call_in_run, gate_step, measure_step, Answer, Call, Calls, Gate, Kind, Refusal,
};
use butrask_calls::{Side, Slice, State, CALLS, GATE_WORDS, MOST_BYTES, TABLE, WIDTHS};

/// The number after the last call's.
const NEXT: u64 = TABLE[CALLS - 1].number + 1;

/// A case with one call that is refused, and the refusal.
#[derive(Clone, Debug)]
pub struct Damaged {
    pub case: Case,
    pub expected: Refusal,
}

/// A sound state with four entries, two in each part: all that differ from a key in the qubits
/// `tag` and `inner` alone.
struct Sound {
    case: Case,
    width: u64,
    /// The qubit that tells the parts apart. The state is tagged by it or by none.
    tag: u64,
    /// A qubit in which the two entries of each part differ.
    inner: u64,
    /// A qubit in which no entry has a partner.
    outer: u64,
}

/// Words of the record that has this index.
fn record(width: u64, index: usize) -> std::ops::Range<usize> {
    let words = width as usize + 2;
    index * words..(index + 1) * words
}

impl Sound {
    fn new(r: &mut Random) -> Sound {
        let width = r.pick(&WIDTHS);
        let mut qubits = vec![];
        while qubits.len() < 3 {
            let anywhere = r.below(64 * width);
            let qubit = r.pick(&[anywhere, 0, 5, 63, 64 * width - 1]);
            if !qubits.contains(&qubit) {
                qubits.push(qubit);
            }
        }
        let [tag, inner, outer] = [qubits[0], qubits[1], qubits[2]];
        let base: Vec<u64> = (0..width).map(|_| r.word()).collect();
        let mut front = vec![];
        for in_part_1 in [false, true] {
            for set in [false, true] {
                let key = with_bit(&base, tag, in_part_1);
                front.extend(with_bit(&key, inner, set));
                front.extend([10.0, 1.0].map(f64::to_bits));
            }
        }
        let mut back = vec![];
        let words = width as usize + 2;
        for store in [&mut front, &mut back] {
            let length = (12 + r.index(3)) * words + r.index(words);
            store.resize_with(length, || r.word());
        }
        let front_side = r.pick(&Side::BOTH);
        let state = State::new(width, front_side, [2, 2], r.chance(60).then_some(tag));
        Sound {
            case: Case::new(state, front, back, vec![]),
            width,
            tag,
            inner,
            outer,
        }
    }

    /// A call that would be accepted.
    fn call(&self, r: &mut Random) -> Call {
        let qubit = r.pick(&[self.tag, self.inner, self.outer]);
        let gate = Gate::real(2.0, 1.0, 3.0, 1.0);
        let (outcome, scale) = (r.chance(50), 2.0f64);
        match r.below(14) {
            0 => Call::Check,
            1 => Call::Fresh { width: self.width },
            2 => Call::Lookup {
                key: self.case.front()[..self.width as usize].to_vec(),
            },
            3 => Call::Export,
            4 => Call::Premeasure { qubit },
            5 => Call::ImportDense {
                width: self.width,
                store: r.pick(&Side::BOTH),
                list: [1.0, 0.0, 0.0, 2.0, 0.5, 0.5].map(f64::to_bits).to_vec(),
            },
            6 => Call::CollapseDelta {
                qubit,
                gate,
                index: r.word(),
            },
            7 => Call::Forecast { qubit, gate },
            8 => Call::Run {
                steps: vec![gate_step(qubit, &gate)],
            },
            9 => Call::Run {
                steps: vec![measure_step(qubit, outcome, scale)],
            },
            10 => Call::Run { steps: vec![] },
            11 => Call::Measure {
                qubit,
                outcome,
                scale: scale.to_bits(),
            },
            12 => {
                let keys = [0, 1].map(|i| self.case.front()[record(self.width, i)].to_vec());
                let [a, b] = keys.map(|record| record[..self.width as usize].to_vec());
                Call::Compare {
                    width: self.width,
                    left_out: r.chance(50),
                    qubit,
                    a,
                    b,
                }
            }
            _ => Call::PerformU4 { qubit, gate },
        }
    }

    /// The rows that a damage can make apply to this call.
    fn rows(&self, call: &Call) -> Vec<Refusal> {
        let mut rows = match call {
            Call::Fresh { .. } => return vec![Refusal::Width, Refusal::Full],
            Call::Compare { left_out, .. } => {
                let mut rows = vec![Refusal::Width, Refusal::Length];
                rows.extend(left_out.then_some(Refusal::Qubit));
                return rows;
            }
            Call::ImportDense { .. } => {
                return vec![
                    Refusal::Width,
                    Refusal::NotFinite,
                    Refusal::Length,
                    Refusal::Full,
                ]
            }
            _ => vec![
                Refusal::Width,
                Refusal::Count,
                Refusal::Order,
                Refusal::WrongSide,
                Refusal::NotFinite,
            ],
        };
        let first = first_call(call);
        if first.row().takes(Kind::Qubit) {
            rows.push(Refusal::Qubit);
        }
        match first {
            Call::Lookup { .. } => rows.push(Refusal::Length),
            // Without a partner nothing is computed.
            Call::CollapseDelta { qubit, .. } | Call::Forecast { qubit, .. }
                if qubit != self.outer =>
            {
                rows.push(Refusal::Overflow);
            }
            Call::PerformU4 { .. } => rows.extend([Refusal::Overflow, Refusal::Full]),
            Call::Measure { qubit, outcome, .. } => {
                let stays = self.staying(qubit, outcome);
                if stays > 0 {
                    rows.push(Refusal::Overflow);
                }
                if self.case.state.tag != Some(qubit) && stays > 0 && stays < 4 {
                    rows.push(Refusal::Full);
                }
            }
            _ => {}
        }
        if matches!(call, Call::Run { steps } if !steps.is_empty()) {
            rows.push(Refusal::Step);
        }
        rows
    }

    /// How many entries have this outcome.
    fn staying(&self, qubit: u64, outcome: bool) -> usize {
        let has = |i: &usize| {
            let record = &self.case.front()[record(self.width, *i)];
            bit(record, qubit) == outcome
        };
        (0..4).filter(has).count()
    }
}

/// The call itself, or that of a run's first step.
pub(crate) fn first_call(call: &Call) -> Call {
    match call {
        Call::Run { steps } => steps.first().and_then(call_in_run).unwrap_or(Call::Check),
        _ => call.clone(),
    }
}

/// A sound case with up to three damages.
pub fn damaged(r: &mut Random) -> Damaged {
    let sound = Sound::new(r);
    let mut call = sound.call(r);
    let rows = sound.rows(&call);
    let mut chosen: Vec<Refusal> = (0..1 + r.below(3)).map(|_| r.pick(&rows)).collect();
    chosen.sort();
    chosen.dedup();
    let repartitions = matches!(first_call(&call),
        Call::PerformU4 { qubit, .. } if sound.case.state.tag != Some(qubit));
    let mut case = sound.case.clone();
    let mut full_before_overflow = false;
    // The later rows first: a damaged step can't be damaged again as a gate.
    for row in chosen.iter().rev() {
        match row {
            Refusal::Step => spoil_step(r, &mut call),
            Refusal::Width => spoil_width(r, &mut case, &mut call),
            Refusal::Qubit => {
                let qubits = 64 * sound.width;
                spoil_qubit(r.pick(&[qubits, qubits + 1, 1 << 32, u64::MAX]), &mut call);
            }
            Refusal::Count => spoil_count(r, &mut case),
            Refusal::Order => spoil_order(r, &mut case),
            Refusal::WrongSide => {
                let qubits = 64 * sound.width;
                let tag = r.pick(&[qubits, qubits + 1, 1 << 32, u64::MAX, sound.inner]);
                case.state.tag = Some(tag);
            }
            Refusal::NotFinite => spoil_float(r, &mut case, &mut call),
            Refusal::Length => match &mut call {
                Call::Lookup { key } => spoil_length(r, key),
                Call::Compare { a, b, .. } => match r.below(3) {
                    0 => spoil_length(r, a),
                    1 => spoil_length(r, b),
                    _ => [a, b].into_iter().for_each(|key| spoil_length(r, key)),
                },
                Call::ImportDense { list, .. } => list.push(0),
                _ => unreachable!("no other call has a length"),
            },
            Refusal::Overflow => spoil_size(r, &sound, &mut call),
            Refusal::Full => {
                full_before_overflow = spoil_room(r, &sound, &mut case, &call, repartitions);
            }
        }
    }
    // The first that applies, down the table; but a gate tests 9 for its repartition before 8.
    let expected = match chosen[0] {
        Refusal::Overflow if full_before_overflow => Refusal::Full,
        first => first,
    };
    case.calls = vec![call];
    Damaged { case, expected }
}

fn spoil_step(r: &mut Random, call: &mut Call) {
    let Call::Run { steps } = call else {
        unreachable!("only a run has steps")
    };
    let step = &mut steps[0];
    // A word that is cut to 32 bits would be an accepted one.
    let high = 1 << 32;
    if step[0] == 2 && r.chance(50) {
        // An outcome, or a word that should be 0.
        step[r.pick(&[2, 4, 5, 6, 7, 8, 9])] = r.pick(&[2, 3, high, high + 1, high + 2, u64::MAX]);
    } else {
        step[0] = r.pick(&[0, 3, 4, 256, high, high + 1, high + 2, u64::MAX]);
    }
}

fn spoil_width(r: &mut Random, case: &mut Case, call: &mut Call) {
    let unlisted = r.pick(&[
        0,
        3,
        4,
        8,
        21,
        61,
        63,
        64,
        1 << 32,
        (1 << 32) + 1,
        (1 << 32) + 2,
        1 << 58,
        u64::MAX,
    ]);
    if call.row().takes(Kind::Width) {
        call.set_number(Kind::Width, unlisted);
    } else {
        case.state.width = unlisted;
    }
}

fn spoil_qubit(bad: u64, call: &mut Call) {
    match call {
        Call::Run { steps } => steps[0][1] = bad,
        _ => call.set_number(Kind::Qubit, bad),
    }
}

/// A key with words too few, or one too many.
fn spoil_length(r: &mut Random, key: &mut Vec<u64>) {
    if r.chance(50) {
        key.truncate(r.index(key.len()));
    } else {
        key.push(0);
    }
}

fn spoil_count(r: &mut Random, case: &mut Case) {
    let record = case.state.width.min(62) as usize + 2;
    let capacity = (case.front().len() / record) as u64;
    let sizes = match r.below(6) {
        0 => [capacity, 1],
        1 => [0, capacity + 1],
        2 => [u64::MAX, 1],
        3 => [1 << 63, 1 << 63],
        4 => [u64::MAX, u64::MAX],
        _ => {
            // The last record is a word short.
            case.front_mut().truncate(4 * record - 1);
            [2, 2]
        }
    };
    case.state.set_sizes(sizes);
}

/// Two records of a part change places, become one key, or a key is in both parts.
fn spoil_order(r: &mut Random, case: &mut Case) {
    let width = case.state.width.min(62);
    let words = width as usize;
    let (from, to) = r.pick(&[(0, 1), (2, 3), (0, 2), (0, 3), (1, 2), (1, 3)]);
    let (from_at, to_at) = (record(width, from).start, record(width, to).start);
    let front = case.front_mut();
    if front.len() < to_at + words {
        return;
    }
    if to == from + 1 && from != 1 && r.chance(50) {
        for word in 0..words {
            front.swap(from_at + word, to_at + word);
        }
    } else {
        front.copy_within(from_at..from_at + words, to_at);
    }
}

fn spoil_float(r: &mut Random, case: &mut Case, call: &mut Call) {
    let bad = r.pick(&NOT_FINITE);
    match call {
        Call::ImportDense { list, .. } => {
            let at = r.index(list.len());
            list[at] = bad;
            return;
        }
        Call::PerformU4 { gate, .. }
        | Call::CollapseDelta { gate, .. }
        | Call::Forecast { gate, .. }
            if r.chance(50) =>
        {
            set_parts(gate, &[r.index(GATE_WORDS)], bad);
            return;
        }
        Call::Measure { scale, .. } if r.chance(50) => {
            *scale = bad;
            return;
        }
        Call::Run { steps } if !steps.is_empty() && r.chance(50) => {
            steps[0][3] = bad;
            return;
        }
        _ => {}
    }
    let width = case.state.width.min(62);
    let at = record(width, r.index(4)).start + width as usize + r.index(2);
    if let Some(word) = case.front_mut().get_mut(at) {
        *word = bad;
    }
}

/// Puts a pattern into parts of a gate.
fn set_parts(gate: &mut Gate, parts: &[usize], pattern: u64) {
    let mut words = gate.words();
    for &part in parts {
        words[part] = pattern;
    }
    *gate = Gate::of(words);
}

/// A gate or a scale that makes new amplitudes infinite.
fn spoil_size(r: &mut Random, sound: &Sound, call: &mut Call) {
    let large = f64::to_bits(r.pick(&[1e308, -1e308]));
    let small = f64::to_bits(r.pick(&[0.0, -0.0, 1e-308, 5e-324]));
    // Entries without a partner all have the bit clear, or all have it set. In a pair one stay is
    // enough, and where it is that of the first operand the infinite sum is dropped.
    let paired = !matches!(first_call(call), Call::PerformU4 { qubit, .. } if qubit == sound.outer);
    let stays: &[usize] = match r.below(3) {
        0 if paired => &[0],
        1 if paired => &[4],
        _ => &[0, 4],
    };
    match call {
        Call::PerformU4 { gate, .. }
        | Call::CollapseDelta { gate, .. }
        | Call::Forecast { gate, .. } => set_parts(gate, stays, large),
        Call::Measure { scale, .. } => *scale = small,
        Call::Run { steps } if steps[0][0] == 1 => {
            stays.iter().for_each(|at| steps[0][2 + at] = large);
        }
        Call::Run { steps } => steps[0][3] = small,
        _ => unreachable!("no other call computes a part"),
    }
}

/// A store that is too short. Says whether it is one for a repartition.
fn spoil_room(
    r: &mut Random,
    sound: &Sound,
    case: &mut Case,
    call: &Call,
    repartitions: bool,
) -> bool {
    let words = sound.width as usize + 2;
    // Up to one word less than so many records.
    let short = |r: &mut Random, records: usize| r.pick(&[0, records - 1]) * words + r.index(words);
    match first_call(call) {
        Call::Fresh { .. } => case.lent.left.truncate(r.index(words)),
        Call::ImportDense { store, .. } => {
            let length = short(r, 3);
            case.lent.store_mut(store).truncate(length);
        }
        // Eight results, of which four have room.
        Call::PerformU4 { qubit, .. } if qubit == sound.outer && r.chance(50) => {
            let length = 4 * words + r.index(4 * words);
            case.front_mut().truncate(length);
        }
        Call::PerformU4 { .. } => {
            let length = short(r, 4);
            case.back_mut().truncate(length);
            return repartitions;
        }
        Call::Measure { qubit, outcome, .. } => {
            let length = short(r, sound.staying(qubit, outcome));
            case.back_mut().truncate(length);
        }
        _ => unreachable!("no other call writes"),
    }
    false
}

/// Tests a library on a damaged case: the answer, and that state and words stay.
pub fn refused_as_expected(library: &mut dyn Calls, damaged: &Damaged) -> Result<(), Difference> {
    let Damaged { case, expected } = damaged;
    let call = &case.calls[0];
    let mut lent = case.lent.clone();
    let reply = library.call(call, case.state, &mut lent);
    let answer = match call {
        Call::Run { .. } => Answer::Ran {
            done: 0,
            stopped: Some(*expected),
        },
        Call::Export => Answer::Exported {
            store: case.state.front,
            words: 0,
        },
        _ => Answer::Refused(*expected),
    };
    let differ = |what: String| {
        Err(Difference {
            call: Some(0),
            what,
        })
    };
    if reply.answer != answer {
        return differ(format!("{:?}, expected {answer:?}", reply.answer));
    }
    stay::untouched(case, reply, &lent).or_else(differ)
}

/// A random case, broken in up to three ways.
pub fn broken(r: &mut Random) -> Case {
    let mut case = generate::case(r);
    for _ in 0..1 + r.below(3) {
        let state = &mut case.state;
        let [n0, n1] = state.sizes();
        match r.below(9) {
            0 => state.width = r.pick(&[0, 1, 2, 3, 14, 62, 63, u64::MAX]),
            1 => state.set_sizes([n1, n0]),
            2 => state.set_sizes([n0.wrapping_sub(r.below(3)), n1.wrapping_add(r.below(3))]),
            3 => state.set_sizes([u64::MAX - r.below(2), r.below(3)]),
            4 => state.tag = r.pick(&[None, Some(0), Some(63), Some(64), Some(u64::MAX)]),
            5 => state.front = state.front.other(),
            6 => shorten(r, &mut case.lent.left),
            7 => shorten(r, &mut case.lent.right),
            _ => {
                let word = r.pick(&[0, 1, u64::MAX, NOT_FINITE[0], NOT_FINITE[3]]);
                let front = case.front_mut();
                if !front.is_empty() {
                    let at = r.index(front.len().min(40));
                    front[at] = word;
                }
            }
        }
    }
    case
}

fn shorten(r: &mut Random, store: &mut Vec<u64>) {
    let length = r.index(store.len() + 1);
    store.truncate(length);
}

/// The first call of a case on bytes, with stray bytes, and with words and bytes too few or too
/// many, in any of its slices.
pub fn lengthened(r: &mut Random, case: &Case) -> OnBytes {
    let mut by = on_bytes(&case.calls[0], case.state, &case.lent);
    for &slice in &Slice::ALL {
        if r.chance(60) {
            continue;
        }
        let bytes = &mut by[slice];
        let length = bytes.len();
        match r.below(8) {
            0..3 => bytes.resize_with(length + 1 + r.index(7), || r.word() as u8),
            3 | 4 => bytes.truncate(length.saturating_sub(1 + r.index(7))),
            5 => bytes.resize_with(length + 1 + r.index(80), || r.word() as u8),
            6 => bytes.truncate(length.saturating_sub(8 * r.index(10))),
            _ => bytes.truncate(r.index(length + 1)),
        }
    }
    match r.below(200) {
        0 => {
            let length = MOST_BYTES + r.pick(&[1, 7, 8]);
            by[r.pick(&Slice::ALL)].resize(length, 0);
        }
        1 => by[r.pick(&Slice::ALL)].resize(MOST_BYTES, 0),
        2 => by.number = r.pick(&[0, NEXT, 256 + by.number, (1 << 32) + by.number, u64::MAX]),
        _ => {}
    }
    by
}
