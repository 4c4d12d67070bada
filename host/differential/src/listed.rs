//! The list of calls and answers that the program `replay` takes, as words of 64 bits,
//! little-endian. crates/replay/src/main.rt says what stands where in an item. Every call of a case
//! is an item of its own, which begins with the state that the call before it left.
use crate::boundary::right_length;
use crate::damage::Damaged;
use crate::{compare, damage, drive, exhaustive, of_every_call, Case, Random, Tally};
use butrask_calls::{gate_step, measure_step, to_bytes, Answer, ByNumber, Call, Calls, Gate, Kind};
use butrask_calls::{Lent, Place, Refusal, Row, Side, Slice, State, Step, Use, CALLS};
use butrask_calls::{NO_CALL, STATE_FIELDS, STATE_WORDS, STEP_WORDS, TABLE, WIDTHS, WRONG_LENGTH};
use butrask_model::Model;
use std::collections::BTreeMap;
use std::fmt::{self, Display, Formatter};

/// The seed of the list that the repository has.
pub const SEED: u64 = 2026;

/// The slices that an item has again after its call, of all that it has before it: those that a
/// call may change.
pub fn after() -> impl Iterator<Item = Slice> {
    Slice::ALL.into_iter().filter(|slice| slice.is_mutable())
}

/// Which words of a header say how many words the slices have before the call: after the call's
/// number, a, b and c.
pub const LENGTHS: std::ops::Range<usize> = 4..4 + Slice::ALL.len();

/// Which word of a header is the answer.
pub const ANSWER: usize = LENGTHS.end;

/// How many words a header has.
pub const HEADER: usize = ANSWER + 1;

/// The most words that a store, an argument or any other slice has in the list.
pub const LONGEST: usize = 512;

/// Whether no store and no argument of a case is too long for the list.
fn fits(case: &Case) -> bool {
    case.longest() <= LONGEST
}

/// A program that cuts words to 32 bits takes this for 0.
const HIGH: u64 = 1 << 32;

/// What the words for results hold before a call.
const UNGIVEN: u64 = 79;

/// A list, and how many items it has of each call, answer and width.
#[derive(Clone, Debug, Default)]
pub struct List {
    pub words: Vec<u64>,
    pub items: u64,
    /// In the order of the table; the last is for those that are no call of it.
    pub calls: [u64; CALLS + 1],
    /// Runs that were stopped after a step or more.
    pub stopped_after_a_step: u64,
    /// By number, 0 for those that were done.
    pub answers: BTreeMap<u64, u64>,
    /// By the places of [`WIDTHS`]; the last is for every other width.
    pub widths: [u64; WIDTHS.len() + 1],
}

impl Display for List {
    fn fmt(&self, f: &mut Formatter<'_>) -> fmt::Result {
        write!(f, "{} calls:", self.items)?;
        let names = TABLE.iter().map(|row| row.name).chain(["other"]);
        for (name, count) in names.zip(self.calls) {
            write!(f, " {name} {count}")?;
        }
        write!(
            f,
            "; runs stopped after a step {}; answers",
            self.stopped_after_a_step
        )?;
        for (number, count) in &self.answers {
            write!(f, " {number}: {count}")?;
        }
        write!(f, "; widths")?;
        for (width, count) in WIDTHS.iter().zip(self.widths) {
            write!(f, " {width}: {count}")?;
        }
        write!(f, " other: {}", self.widths[WIDTHS.len()])
    }
}

/// A call on words.
pub type OnWords = ByNumber<u64>;

fn on_words(call: &Call, state: State, lent: &Lent) -> OnWords {
    ByNumber::new(call, state, lent, UNGIVEN)
}

/// Whether the call of this number takes its second argument or its third store from this slice.
fn uses(number: u64, slice: Slice) -> bool {
    Row::by_number(number).is_some_and(|row| {
        let third = slice == Slice::Third && row.third.is_some();
        third || row.args.iter().any(|arg| arg.place == Place::Slice(slice))
    })
}

/// The item of a call that gave the answer and left those words.
fn item(before: &OnWords, answer: u64, after: &OnWords) -> Vec<u64> {
    let mut item = vec![before.number];
    item.extend(before.numbers);
    item.extend(Slice::ALL.iter().map(|slice| before[*slice].len() as u64));
    item.push(answer);
    item.extend(Slice::ALL.iter().flat_map(|slice| &before[*slice]));
    item.extend(self::after().flat_map(|slice| &after[slice]));
    // With it the exclusive or of the item's words is 0.
    item.push(item.iter().fold(0, |a, b| a ^ b));
    item
}

/// An item of a list.
pub struct Item {
    /// Which words of the list it has.
    pub place: std::ops::Range<usize>,
    pub before: OnWords,
    pub answer: u64,
    /// What the call left.
    pub after: OnWords,
}

/// The items of a list.
pub fn items(list: &[u64]) -> Vec<Item> {
    let mut items = vec![];
    let mut at = 0;
    while at < list.len() {
        let start = at;
        let mut take = |words: u64| {
            at += words as usize;
            &list[at - words as usize..at]
        };
        let header = take(HEADER as u64);
        let mut before = ByNumber::empty(header[0]);
        before.numbers.copy_from_slice(&header[1..LENGTHS.start]);
        for (slice, words) in Slice::ALL.iter().zip(&header[LENGTHS]) {
            before[*slice] = take(*words).to_vec();
        }
        let mut left = before.clone();
        for slice in after() {
            left[slice] = take(before[slice].len() as u64).to_vec();
        }
        take(1);
        items.push(Item {
            place: start..at,
            before,
            answer: header[ANSWER],
            after: left,
        });
    }
    items
}

impl List {
    pub fn bytes(&self) -> Vec<u8> {
        to_bytes(&self.words)
    }

    /// Adds the calls of a case, as the model answers them. A case with stores or arguments that
    /// are too long is left out; the answer is whether it was added.
    #[must_use]
    fn add(&mut self, case: &Case) -> bool {
        if !fits(case) {
            return false;
        }
        let (mut state, mut lent) = (case.state, case.lent.clone());
        for call in &case.calls {
            let before = on_words(call, state, &lent);
            let width = call.number_of(Kind::Width).unwrap_or(state.width);
            let reply = Model.call(call, state, &mut lent);
            state = reply.state;
            let mut after = on_words(call, state, &lent);
            let answer = reply.answer.give(&mut after[Slice::Out]);
            if matches!(
                reply.answer,
                Answer::Ran {
                    done: 1..,
                    stopped: Some(_)
                }
            ) {
                self.stopped_after_a_step += 1;
            }
            self.push(call.index(), width, before, answer, after);
        }
        true
    }

    /// Adds a call on state words that the host's own states don't have. A call that makes a state
    /// writes the usual ones where it was done, a run in any case; otherwise they stay.
    fn add_unusual(&mut self, call: &Call, before: &OnWords) {
        let mut lent = before.lent();
        let reply = Model.call(call, before.state(), &mut lent);
        let mut after = on_words(call, reply.state, &lent);
        let answer = reply.answer.give(&mut after[Slice::Out]);
        let written = match call.row().state {
            Use::Runs => true,
            Use::Makes => answer == 0,
            Use::Reads | Use::Ignores => false,
        };
        if !written {
            after[Slice::State] = before[Slice::State].clone();
        }
        self.push(call.index(), 1, before.clone(), answer, after);
    }

    /// Adds a call that takes no state, with any words in place of one and of the stores.
    fn add_stateless(&mut self, call: &Call, before: &OnWords) {
        let reply = Model.call(call, State::of([0; STATE_WORDS]), &mut before.lent());
        let mut after = before.clone();
        let answer = reply.answer.give(&mut after[Slice::Out]);
        let width = call.number_of(Kind::Width).unwrap_or(0);
        self.push(call.index(), width, before.clone(), answer, after);
    }

    /// Adds a run of so many whole steps, which are done, and words that are left over.
    fn add_stray(&mut self, whole: u64, before: &OnWords) {
        let (steps, _) = before[Slice::Arg].as_chunks::<STEP_WORDS>();
        let run = Call::Run {
            steps: steps.to_vec(),
        };
        let (mut state, mut lent) = (before.state(), before.lent());
        let width = state.width;
        if whole > 0 {
            let reply = Model.call(&run, state, &mut lent);
            let done = Answer::Ran {
                done: whole,
                stopped: None,
            };
            assert_eq!(reply.answer, done);
            state = reply.state;
            self.stopped_after_a_step += 1;
        }
        let mut after = on_words(&run, state, &lent);
        after[Slice::Out] = vec![whole];
        let answer = Refusal::Step.number();
        self.push(run.index(), width, before.clone(), answer, after);
    }

    /// Adds a call that leaves every word as it was: there is no such call, a slice has the wrong
    /// length, or an outcome is neither 0 nor 1.
    fn add_kept(&mut self, lent: &OnWords, answer: u64) {
        self.push(CALLS, 1, lent.clone(), answer, lent.clone());
    }

    /// Adds an item. Every seventh, the second among them, has words in the slices that its call
    /// has no use for, which stay.
    fn push(
        &mut self,
        kind: usize,
        width: u64,
        mut before: OnWords,
        answer: u64,
        mut after: OnWords,
    ) {
        if self.items % 7 == 1 {
            let mut r = Random::new(self.items);
            let (number, slices) = (before.number, [Slice::Arg2, Slice::Third]);
            for slice in slices.into_iter().filter(|slice| !uses(number, *slice)) {
                let words: Vec<u64> = (0..=r.index(9)).map(|_| r.word()).collect();
                before[slice] = words.clone();
                after[slice] = words;
            }
        }
        self.items += 1;
        self.calls[kind] += 1;
        *self.answers.entry(answer).or_default() += 1;
        let place = WIDTHS.iter().position(|w| *w == width);
        self.widths[place.unwrap_or(WIDTHS.len())] += 1;
        self.words.extend(item(&before, answer, &after));
    }
}

/// The list: random sound cases of every width, most of them of the small ones, every call at every
/// width, the worked cases, runs, comparisons of keys, and small states, dense lists about 2^-40
/// and small keys, each compared with the reference before it is written; damaged cases, by hand
/// and at random, each of which gives the number that is expected of its damage; cases that are
/// broken in any way, as the model answers them; calls on unusual state words; runs of lists that
/// are not whole; comparisons with any words in place of a state; and calls whose slices have wrong
/// lengths.
pub fn list(seed: u64) -> Result<List, String> {
    let mut list = List::default();
    let mut r = Random::new(seed);
    for (width, calls) in WIDTHS.into_iter().zip([700, 160, 40, 8, 5, 5, 3, 3]) {
        let entries = |case: &Case| (case.state.n0 + case.state.n1) as usize;
        let until = list.items + calls;
        let cases = drive::sound_cases_of_width(seed, u64::MAX, width)
            .filter(|case| entries(case) <= 3)
            .filter(fits);
        for case in cases {
            let records = entries(&case) + r.index(3);
            add_sound(&mut list, shortened(case, records))?;
            if list.items >= until {
                break;
            }
        }
    }
    for case in WIDTHS
        .into_iter()
        .map(every_call)
        .chain(edges())
        .chain(runs())
        .chain(comparisons())
    {
        add_sound(&mut list, case)?;
    }
    for case in exhaustive::cases().step_by(1999) {
        add_sound(&mut list, shortened(case, 4))?;
    }
    for case in exhaustive::tight_cases().step_by(1999) {
        add_sound(&mut list, case)?;
    }
    for case in exhaustive::dense_cases().step_by(11) {
        add_sound(&mut list, shortened(case, 2))?;
    }
    for case in exhaustive::comparison_cases().step_by(199) {
        add_sound(&mut list, shortened(case, 0))?;
    }
    for damaged in refused() {
        damage::refused_as_expected(&mut Model, &damaged)
            .map_err(|difference| format!("{difference}\n{}", damaged.case))?;
        add_listed(&mut list, &damaged.case)?;
    }
    let mut wanted = [30; Refusal::ALL.len()];
    while wanted.iter().any(|more| *more > 0) {
        let Damaged { case, expected } = damage::damaged(&mut r);
        let large = WIDTHS[2..].contains(&case.state.width);
        let damaged = Damaged {
            case: shortened(case, if large { 5 } else { 7 }),
            expected,
        };
        let wanted = &mut wanted[expected as usize];
        if *wanted == 0 || (large && !r.chance(2)) {
            continue;
        }
        // With less room another number may apply.
        if damage::refused_as_expected(&mut Model, &damaged).is_ok() && list.add(&damaged.case) {
            *wanted -= 1;
        }
    }
    let until = list.items + 200;
    while list.items < until {
        let case = damage::broken(&mut r);
        if case.lent.left.len() + case.lent.right.len() <= 40 && fits(&case) {
            add_listed(&mut list, &case)?;
        }
    }
    for (call, lent) in unusual() {
        list.add_unusual(&call, &lent);
    }
    for (whole, lent) in stray_words() {
        list.add_stray(whole, &lent);
    }
    for (call, lent) in stateless() {
        list.add_stateless(&call, &lent);
    }
    for (lent, answer) in wrong_lengths() {
        list.add_kept(&lent, answer);
    }
    Ok(list)
}

/// Compares the model with the reference on a case, and adds the case.
fn add_sound(list: &mut List, case: Case) -> Result<(), String> {
    compare::as_reference(&mut Model, &case, &mut Tally::default())
        .map_err(|difference| format!("{difference}\n{case}"))?;
    add_listed(list, &case)
}

/// Adds a case that has to be short enough for the list.
fn add_listed(list: &mut List, case: &Case) -> Result<(), String> {
    if list.add(case) {
        Ok(())
    } else {
        Err(format!("a case is too long for the list\n{case}"))
    }
}

/// The case with stores that have room for so many records and a word, or less.
fn shortened(mut case: Case, records: usize) -> Case {
    let width = case.state.width;
    if WIDTHS.contains(&width) {
        let words = records * (width as usize + 2) + 1;
        case.lent.left.truncate(words);
        case.lent.right.truncate(words);
    }
    case
}

/// A state of width 1 with real amplitudes in the left store, stores of so many records, and calls.
fn real(
    tag: Option<u64>,
    parts: [&[(u64, f64)]; 2],
    [front, back]: [usize; 2],
    calls: Vec<Call>,
) -> Case {
    let state = State::new(1, Side::Left, parts.map(|part| part.len() as u64), tag);
    let record = |(key, re): &(u64, f64)| [*key, re.to_bits(), 0];
    let mut left: Vec<u64> = parts.concat().iter().flat_map(record).collect();
    left.resize(3 * front, 77);
    Case::new(state, left, vec![78; 3 * back], calls)
}

/// Gate 1 1 −1 1.
fn spreads() -> Gate {
    Gate::real(1.0, 1.0, -1.0, 1.0)
}

/// A measurement as a step, with any outcome and any pattern.
fn measuring(qubit: u64, outcome: u64, scale: u64) -> Step {
    let mut step = measure_step(qubit, false, f64::from_bits(scale));
    step[2] = outcome;
    step
}

/// So many steps, no two of them the same, on qubits 0 and 1.
fn steps(length: u64) -> Vec<Step> {
    let step = |i: u64| match i % 6 {
        5 => measure_step(i % 2, false, i as f64),
        _ => gate_step(i % 2, &Gate::real(1.0, 1.0 + i as f64, -1.0, 1.0)),
    };
    (0..length).map(step).collect()
}

/// Every call once at a width, each of them done, in stores of two records and a word: lookups that
/// find and don't find, gates by the tag and by another qubit, and the three ways of measuring: by
/// the tag with records that move, in place by another qubit, and copied.
fn every_call(width: u64) -> Case {
    let spreads = spreads();
    let (first, last) = (0, 64 * width - 1);
    let key = |qubits: &[u64]| {
        let mut key = vec![0; width as usize];
        for qubit in qubits {
            key[(qubit / 64) as usize] |= 1 << (qubit % 64);
        }
        key
    };
    let measure = |qubit, outcome, scale| Call::Measure {
        qubit,
        outcome,
        scale: f64::to_bits(scale),
    };
    let spread_last = gate_step(last, &spreads);
    let measure_last = measure_step(last, false, 2.0);
    let calls = vec![
        Call::Fresh { width },
        Call::Check,
        Call::Lookup { key: key(&[]) },
        Call::Lookup { key: key(&[last]) },
        Call::PerformU4 {
            qubit: first,
            gate: spreads,
        },
        Call::Premeasure { qubit: first },
        Call::Premeasure { qubit: last },
        Call::Export,
        Call::CollapseDelta {
            qubit: first,
            gate: spreads,
            index: 1,
        },
        Call::Forecast {
            qubit: last,
            gate: spreads,
        },
        measure(first, true, 2.0),
        Call::PerformU4 {
            qubit: last,
            gate: spreads,
        },
        Call::Lookup {
            key: key(&[first, last]),
        },
        Call::Export,
        measure(first, true, 0.5),
        Call::Run {
            steps: vec![spread_last, spread_last, measure_last],
        },
        Call::ImportDense {
            width,
            store: Side::Right,
            list: [0.5, -1.0, 0.0, 2.0].map(f64::to_bits).to_vec(),
        },
        measure(first, true, 2.0),
        Call::Check,
        compare(width, None, &key(&[]), &key(&[last])),
        compare(width, None, &key(&[last]), &key(&[])),
        compare(width, Some(last), &key(&[last]), &key(&[])),
    ];
    let state = State::new(width, Side::Left, [0, 0], None);
    let words = 2 * (width as usize + 2) + 1;
    Case::new(state, vec![77; words], vec![78; words], calls)
}

/// The worked cases a to m (SPECIFICATION 12.1).
fn edges() -> Vec<Case> {
    let stays = Gate::real(1.0, 0.0, 1.0, 0.0);
    let spreads = spreads();
    let adds_set = Gate::real(1.0, 0.0, 1.0, 1.0);
    let perform = |qubit, gate| Call::PerformU4 { qubit, gate };
    let estimate = |qubit, gate, index| Call::CollapseDelta { qubit, gate, index };
    let measure = |scale: f64| Call::Measure {
        qubit: 0,
        outcome: true,
        scale: scale.to_bits(),
    };
    let fresh: [&[(u64, f64)]; 2] = [&[(0, 1.0)], &[]];
    let ones: [&[(u64, f64)]; 2] = [&[(0, 1.0)], &[(1, 1.0)]];
    let both: [&[(u64, f64)]; 2] = [&[(0, 1.0), (1, 1.0)], &[]];
    let (large, tiny) = (2f64.powi(40), 2f64.powi(-40));
    let dropping = vec![
        estimate(0, adds_set, 0),
        estimate(0, adds_set, 1),
        Call::Forecast {
            qubit: 0,
            gate: adds_set,
        },
        perform(0, adds_set),
    ];
    let dense = [0x3d70_0000_0000_0000, 0, 0x3d6f_ffff_ffff_ffff, 0];
    let import = Call::ImportDense {
        width: 1,
        store: Side::Left,
        list: dense.to_vec(),
    };
    let any = [0, 1, 63].map(|qubit| estimate(qubit, spreads, 0)).to_vec();
    let last = vec![perform(64, spreads), perform(63, spreads)];
    vec![
        real(Some(0), fresh, [4, 4], vec![perform(0, stays); 2]),
        real(Some(0), fresh, [4, 4], vec![perform(0, spreads); 2]),
        real(
            Some(0),
            [&[(0, large)], &[(1, 1.0 - large)]],
            [4, 4],
            dropping.clone(),
        ),
        real(
            Some(0),
            [&[(0, large)], &[(1, 2.0 - large)]],
            [4, 4],
            dropping,
        ),
        real(None, [&[], &[]], [2, 2], vec![import]),
        real(Some(0), ones, [4, 4], vec![measure(1.0 + tiny / 2.0)]),
        real(None, both, [4, 4], vec![measure(1.0 + tiny / 2.0)]),
        real(Some(0), ones, [4, 4], vec![measure(1.0 + tiny)]),
        real(Some(0), fresh, [4, 4], any.clone()),
        real(Some(0), [&[], &[]], [4, 4], any),
        real(Some(0), fresh, [4, 4], last),
        real(Some(0), fresh, [4, 1], vec![perform(0, spreads)]),
        real(Some(0), fresh, [2, 1], vec![perform(1, spreads)]),
    ]
}

/// Runs of a fresh state of width 1: steps of every kind, done and refused, first and after others.
fn runs() -> Vec<Case> {
    let (one, two) = (1f64.to_bits(), 2f64.to_bits());
    let measure = measuring;
    let real_step = |s0, f0, s1, f1| gate_step(0, &Gate::real(s0, f0, s1, f1));
    let [spread, next, third, none] = [0, 1, 2, 64].map(|qubit| gate_step(qubit, &spreads()));
    let done = vec![
        vec![],
        vec![spread],
        vec![spread; 4],
        vec![spread, next, spread, next],
        vec![measure(0, 0, two)],
        vec![spread, measure(0, 1, two), next, measure(1, 0, one)],
        vec![measure(0, 1, one), spread, measure(1, 1, one)],
    ];
    let refused = [
        [3, 0, 0, 0, 0, 0, 0, 0, 0, 0],
        [0, 0, 0, 0, 0, 0, 0, 0, 0, 0],
        [4, 0, 1, one, 0, 0, 0, 0, 0, 0],
        [u64::MAX; STEP_WORDS],
        [2, 64, 0, one, 0, 0, 0, 0, 0, 1],
        measure(0, 2, one),
        measure(0, u64::MAX, 0),
        measure(64, 0, one),
        measure(0, 0, f64::NAN.to_bits()),
        measure(0, 0, 0),
        none,
        real_step(f64::INFINITY, 0.0, 0.0, 1.0),
        real_step(f64::MAX, f64::MAX, f64::MAX, f64::MAX),
    ];
    // Kinds and outcomes that are accepted ones where words are cut to 32 bits, and a word that is
    // not 0 in each place of a measurement's zeros.
    let with = |step: Step, place: usize, word: u64| {
        let mut step = step;
        step[place] = word;
        step
    };
    let cut = [
        with(spread, 0, HIGH + 1),
        with(measure(0, 0, one), 0, HIGH + 2),
        with([0; STEP_WORDS], 0, HIGH + 3),
        measure(0, HIGH, one),
        measure(0, HIGH + 1, one),
        measure(0, HIGH + 2, one),
    ];
    let not_zero =
        (4..10).flat_map(|place| [1, HIGH].map(|word| with(measure(0, 0, one), place, word)));
    // A premeasure is no step of a list, with its eight zeros or without.
    let premeasures = (2..10).map(|place| vec![with([3, 0, 0, 0, 0, 0, 0, 0, 0, 0], place, HIGH)]);
    // A step that is refused at the start, after others, and before another that would be refused
    // too.
    let refused = refused.into_iter().chain(cut).chain(not_zero);
    let stopped = refused.flat_map(|step| {
        [
            vec![step],
            vec![spread, next, step, spread],
            vec![spread, step, [3; STEP_WORDS]],
        ]
    });
    // Lists that end where a walk that took eight steps at a time would begin a new piece, and lists
    // with a refused step there, last and before others.
    let pieces = [7, 8, 9, 15, 16, 17].map(steps);
    let stopped_there = [7, 8, 15, 16].into_iter().flat_map(|at: usize| {
        [[3; STEP_WORDS], none].map(|step| {
            let mut list = steps(20);
            list[at] = step;
            [list[..=at].to_vec(), list]
        })
    });
    // Room for four records: the fifth to the eighth are too many.
    let full = vec![spread, next, third, spread];
    let fresh: [&[(u64, f64)]; 2] = [&[(0, 1.0)], &[]];
    done.into_iter()
        .chain(stopped)
        .chain(premeasures)
        .chain(pieces)
        .chain(stopped_there.flatten())
        .chain([full])
        .map(|steps| real(Some(0), fresh, [4, 4], vec![Call::Run { steps }]))
        .collect()
}

/// A comparison of keys. Where no qubit is left out, it is one that no key has.
pub fn compare(width: u64, left_out: Option<u64>, a: &[u64], b: &[u64]) -> Call {
    Call::Compare {
        width,
        left_out: left_out.is_some(),
        qubit: left_out.unwrap_or(u64::MAX),
        a: a.to_vec(),
        b: b.to_vec(),
    }
}

/// Comparisons of keys, on no entries.
pub fn only_comparisons(calls: Vec<Call>) -> Case {
    real(None, [&[], &[]], [0, 0], calls)
}

/// Comparisons of keys: the worked example, and at every width keys that differ in one word, the
/// first, the last or one between them, in the bit that is left out alone, in that bit and in a
/// word before or after it, and in none, each way round; and refusals, alone and two at a time. All
/// of these at widths 1 and 2, every third at larger ones.
fn comparisons() -> Vec<Case> {
    let mut cases = vec![only_comparisons(vec![
        compare(2, Some(1), &[3, 2], &[1, 9]),
        compare(2, None, &[3, 2], &[1, 9]),
        compare(2, Some(1), &[1, 9], &[3, 2]),
    ])];
    for width in WIDTHS {
        let (words, qubits) = (width as usize, 64 * width);
        let last = words - 1;
        // Words that are larger as unsigned numbers than as signed ones.
        let base: Vec<u64> = (0..width).map(|i| (1 << 63) + 4 * i).collect();
        let with = |places: &[(usize, u64)]| {
            let mut key = base.clone();
            for (place, bits) in places {
                key[*place] ^= bits;
            }
            key
        };
        let middle = words / 2;
        let mut calls = vec![compare(width, None, &base, &base)];
        let mut both = |left_out: Option<u64>, places: &[(usize, u64)]| {
            calls.push(compare(width, left_out, &base, &with(places)));
            calls.push(compare(width, left_out, &with(places), &base));
        };
        for place in [0, middle, last] {
            let qubit = 64 * place as u64;
            both(None, &[(place, 1)]);
            both(None, &[(place, 1 << 63)]);
            both(Some(qubit), &[(place, 1)]);
            both(Some(qubit + 63), &[(place, 1 << 63)]);
            both(Some(qubit), &[(place, 3)]);
            both(Some(qubit), &[(0, 2), (place, 1)]);
            both(Some(qubit), &[(place, 1), (last, 2)]);
        }
        // Numbers that are accepted ones where words are cut to 32 bits.
        for bad in [qubits, qubits + 1, HIGH, u64::MAX] {
            calls.push(compare(width, Some(bad), &base, &base));
            calls.push(compare(width, Some(bad), &base[..last], &base));
        }
        let longer = [&base[..], &[0]].concat();
        for (a, b) in [
            (&base[..last], &base[..]),
            (&base, &base[..last]),
            (&longer, &base),
            (&base, &longer),
            (&longer, &longer),
            (&base[..last], &longer),
            (&[], &[]),
        ] {
            calls.push(compare(width, None, a, b));
            calls.push(compare(width, Some(0), a, b));
        }
        for bad in [0, 3, 63, HIGH + width, u64::MAX] {
            calls.push(compare(bad, None, &base, &base));
            calls.push(compare(bad, Some(qubits), &base, &longer));
        }
        // At large widths every third will do: of the 14 for each of the three words it has each for
        // one word.
        let step = if width <= 2 { 1 } else { 3 };
        cases.push(only_comparisons(calls.into_iter().step_by(step).collect()));
    }
    cases
}

/// Comparisons, done and refused, with words of other numbers in place of a state, and any stores.
fn stateless() -> Vec<(Call, OnWords)> {
    let sound = real(Some(0), [&[(0, 1.0)], &[]], [2, 2], vec![]);
    let mut items = vec![];
    for call in [
        compare(1, Some(1), &[3], &[1]),
        compare(2, Some(1), &[3, 2], &[1, 9]),
        compare(2, Some(128), &[3, 2], &[1, 9]),
        compare(2, None, &[3, 2], &[1]),
    ] {
        for words in [0, 1, STATE_WORDS - 1, STATE_WORDS, STATE_WORDS + 1, 20] {
            for word in [0, 3, u64::MAX] {
                let mut lent = on_words(&call, sound.state, &sound.lent);
                lent[Slice::State] = vec![word; words];
                lent[Slice::Left] = vec![word; words];
                items.push((call.clone(), lent));
            }
        }
    }
    items
}

/// Every call that looks at a state, on states of width 1 that rows 1 and 3 to 6 of the table
/// refuse.
fn refused() -> Vec<Damaged> {
    let spreads = spreads();
    let step = gate_step(0, &Gate::real(1.0, 1.0, -1.0, 1.0));
    let calls = [
        Call::Check,
        Call::Lookup { key: vec![0] },
        Call::Export,
        Call::PerformU4 {
            qubit: 0,
            gate: spreads,
        },
        Call::Premeasure { qubit: 0 },
        Call::Measure {
            qubit: 0,
            outcome: false,
            scale: 1f64.to_bits(),
        },
        Call::CollapseDelta {
            qubit: 0,
            gate: spreads,
            index: 0,
        },
        Call::Forecast {
            qubit: 0,
            gate: spreads,
        },
        Call::Run { steps: vec![step] },
    ];
    let sound: [&[(u64, f64)]; 2] = [&[(0, 1.0)], &[(1, 1.0)]];
    let mut no_width = real(Some(0), sound, [3, 3], vec![]);
    no_width.state.width = 3;
    let mut too_many = real(Some(0), sound, [3, 3], vec![]);
    too_many.state.n1 = 3;
    // Numbers that would be accepted where words are cut to 32 bits.
    let mut high_width = real(Some(0), sound, [3, 3], vec![]);
    high_width.state.width = HIGH + 1;
    let mut high_count = real(Some(0), sound, [3, 3], vec![]);
    high_count.state.n0 = HIGH + 1;
    let states = [
        (no_width, Refusal::Width),
        (high_width, Refusal::Width),
        (too_many, Refusal::Count),
        (high_count, Refusal::Count),
        (real(Some(HIGH), sound, [3, 3], vec![]), Refusal::WrongSide),
        (
            real(Some(0), [&[(2, 1.0), (0, 1.0)], &[]], [3, 3], vec![]),
            Refusal::Order,
        ),
        (
            real(Some(0), [&[(1, 1.0)], &[(3, 1.0)]], [3, 3], vec![]),
            Refusal::WrongSide,
        ),
        (
            real(Some(0), [&[(0, f64::NAN)], &[(1, 1.0)]], [3, 3], vec![]),
            Refusal::NotFinite,
        ),
    ];
    let each = |call: &Call| {
        let with_call = |(start, expected): &(Case, Refusal)| Damaged {
            case: start.with_call(call),
            expected: *expected,
        };
        states.iter().map(with_call).collect::<Vec<_>>()
    };
    calls.iter().flat_map(each).collect()
}

/// Every call on state words that mean the same as the usual ones: a front mark of 2 or more is
/// right, a flag of 2 or more is a tag, and the tag's word has no meaning where the flag is 0. A
/// dense list goes right by such a mark too, and a qubit is left out by one. Some calls are
/// refused.
fn unusual() -> Vec<(Call, OnWords)> {
    let spreads = spreads();
    let measure = |qubit, scale: f64| Call::Measure {
        qubit,
        outcome: true,
        scale: scale.to_bits(),
    };
    let perform = |qubit| Call::PerformU4 {
        qubit,
        gate: spreads,
    };
    let import = |list: &[f64]| Call::ImportDense {
        width: 1,
        store: Side::Right,
        list: list.iter().map(|x| x.to_bits()).collect(),
    };
    let step = gate_step(0, &Gate::real(1.0, 1.0, -1.0, 1.0));
    let calls = of_every_call(vec![
        perform(0),
        perform(1),
        perform(64),
        measure(0, 2.0),
        measure(1, 2.0),
        measure(64, 2.0),
        Call::Premeasure { qubit: 0 },
        Call::Premeasure { qubit: 64 },
        Call::Fresh { width: 1 },
        Call::Fresh { width: 3 },
        import(&[1.0, 0.0]),
        import(&[1.0]),
        Call::Check,
        Call::Lookup { key: vec![1] },
        Call::Lookup { key: vec![] },
        Call::Export,
        Call::CollapseDelta {
            qubit: 0,
            gate: spreads,
            index: 1,
        },
        Call::Forecast {
            qubit: 0,
            gate: spreads,
        },
        Call::Run { steps: vec![] },
        Call::Run { steps: vec![step] },
        Call::Run {
            steps: vec![step, [3; STEP_WORDS]],
        },
        Call::Run {
            steps: vec![[3; STEP_WORDS]],
        },
        compare(1, Some(1), &[3], &[1]),
        compare(1, Some(64), &[3], &[1]),
    ]);
    let tagged = real(Some(0), [&[(0, 1.0)], &[(1, 0.5)]], [4, 4], vec![]);
    let right = State {
        front: Side::Right,
        ..tagged.state
    };
    let untagged = State { tag: None, ..right };
    // The records stand in the right store.
    let stores = Lent::stores(tagged.lent.right, tagged.lent.left);
    let [front, flag, tag] = ["front", "tagged", "tag"].map(field);
    let mut items = vec![];
    for call in calls {
        let mut with = |state, changes: &[(usize, u64)]| {
            let mut lent = on_words(&call, state, &stores);
            for (place, word) in changes {
                lent[Slice::State][*place] = *word;
            }
            items.push((call.clone(), lent));
        };
        with(right, &[(front, 2)]);
        with(right, &[(front, HIGH)]);
        with(right, &[(front, u64::MAX)]);
        with(right, &[(flag, 2)]);
        with(right, &[(flag, HIGH)]);
        with(right, &[(flag, u64::MAX)]);
        with(untagged, &[(tag, 1)]);
        with(untagged, &[(front, 256), (tag, u64::MAX)]);
        let usual = on_words(&call, right, &stores);
        for arg in call.row().args {
            let is_mark = matches!(arg.kind, Kind::Store | Kind::LeftOut);
            match arg.place {
                Place::Number(place) if is_mark && usual.numbers[place] != 0 => {
                    for mark in [2, HIGH, u64::MAX] {
                        let mut lent = usual.clone();
                        lent.numbers[place] = mark;
                        items.push((call.clone(), lent));
                    }
                }
                _ => {}
            }
        }
    }
    items
}

/// Which word of a state has this name.
fn field(name: &str) -> usize {
    let place = STATE_FIELDS.iter().position(|field| *field == name);
    place.expect("a state has it")
}

/// Runs of lists with words after the last whole step, which are a step that is refused with 10:
/// the number of whole steps, which are done, and the call. Where there is none the state is not
/// tested.
fn stray_words() -> Vec<(u64, OnWords)> {
    let step = gate_step(0, &Gate::real(1.0, 1.0, -1.0, 1.0));
    let sound = real(Some(0), [&[(0, 1.0)], &[]], [4, 4], vec![]);
    let mut items = vec![];
    for stray in 1..STEP_WORDS {
        let mut add = |whole: u64, state: State| {
            let steps = steps(whole);
            let mut lent = on_words(&Call::Run { steps }, state, &sound.lent);
            lent[Slice::Arg].extend(&step[..stray]);
            items.push((whole, lent));
        };
        for whole in [0, 1, 2, 7, 8, 9] {
            add(whole, sound.state);
        }
        let refused = State {
            width: 3,
            ..sound.state
        };
        add(0, refused);
    }
    items
}

/// Calls that the boundary answers by numbers of its own, and measurements with an outcome that is
/// neither 0 nor 1. All words stay.
fn wrong_lengths() -> Vec<(OnWords, u64)> {
    let gate = spreads();
    let calls = of_every_call(vec![
        Call::PerformU4 { qubit: 0, gate },
        Call::Measure {
            qubit: 0,
            outcome: false,
            scale: 1f64.to_bits(),
        },
        Call::Premeasure { qubit: 0 },
        Call::Fresh { width: 1 },
        Call::ImportDense {
            width: 1,
            store: Side::Left,
            list: vec![1f64.to_bits(), 0],
        },
        Call::Check,
        Call::Lookup { key: vec![0] },
        Call::Export,
        Call::CollapseDelta {
            qubit: 0,
            gate,
            index: 0,
        },
        Call::Forecast { qubit: 0, gate },
        Call::Run { steps: vec![] },
        compare(1, Some(1), &[3], &[1]),
        // 100 comes before any other number.
        compare(3, Some(64), &[3], &[]),
        compare(1, Some(64), &[3], &[]),
        compare(1, None, &[3], &[]),
    ]);
    let case = real(Some(0), [&[(0, 1.0)], &[]], [2, 2], vec![]);
    let lent = |call| on_words(call, case.state, &case.lent);
    let mut items = vec![];
    for call in &calls {
        for (slice, filler) in [(Slice::State, 0), (Slice::Out, UNGIVEN), (Slice::Arg, 0)] {
            let Some(words) = right_length(call.row(), slice) else {
                continue;
            };
            // A word less, a word more.
            for length in [words.checked_sub(1), Some(words + 1)]
                .into_iter()
                .flatten()
            {
                let mut wrong = lent(call);
                wrong[slice].resize(length, filler);
                items.push((wrong, WRONG_LENGTH));
            }
        }
    }
    for outcome in [2, HIGH, HIGH + 1, HIGH + 2, u64::MAX] {
        let mut wrong = lent(&calls[1]);
        wrong.numbers[1] = outcome;
        items.push((wrong, Refusal::Step.number()));
    }
    let next = TABLE[CALLS - 1].number + 1;
    for number in [0, next, 256, HIGH + 1, HIGH + 2, u64::MAX] {
        let mut wrong = lent(&Call::Check);
        wrong.number = number;
        items.push((wrong, NO_CALL));
    }
    items
}
