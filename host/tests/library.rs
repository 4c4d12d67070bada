//! The proved library beside the model and beside the reference: every call, all widths, good and
//! damaged input. Answers, states and every word of both stores are compared with the model;
//! entries, order, sizes, tag, sums and estimates with the reference.
//!
//! `BUTRASK_CALLS` and `BUTRASK_SEED` set another number of random calls and another seed,
//! `BUTRASK_CASE` names a file with a case.
#[path = "../differential/tests/edges/mod.rs"]
mod edges;
#[path = "../differential/tests/known/mod.rs"]
mod known;
#[path = "../differential/tests/large/mod.rs"]
mod large;
#[path = "../differential/tests/stray/mod.rs"]
mod stray;

use butrask_calls::{gate_step, measure_step, to_bytes, to_words, Answer, ByNumber, Call, Calls};
use butrask_calls::{Gate, Lent, Refusal, Reply, Results, Row, Side, Slice, State, Step, Use};
use butrask_calls::{
    MOST_BYTES, NO_CALL, STATE_WORDS, STEP_WORDS, TABLE, WIDTHS, WRONG_BYTES, WRONG_LENGTH,
};
use butrask_differential::boundary::{self, on_bytes, OnBytes};
use butrask_differential::damage::lengthened;
use butrask_differential::drive::Progress;
use butrask_differential::{compare, drive, exhaustive, listed, recorded, reference_is_there, say};
use butrask_differential::{Case, Counts, Random, Tally};
use butrask_host::calls::{self, Stores};
use butrask_host::probe;
use butrask_model::Model;
use std::cell::Cell;
use std::collections::BTreeMap;
use std::fmt::{self, Display, Formatter};

/// The libraries that the modules take their calls through.
fn libraries() -> Vec<Box<dyn Calls>> {
    vec![Box::new(Words), Box::new(Bytes)]
}

/// Those of them that have room for a case.
fn libraries_for(case: &Case) -> Vec<Box<dyn Calls>> {
    if fits_bytes(case) {
        libraries()
    } else {
        vec![Box::new(Words)]
    }
}

/// A number from the environment, or the one that is used where nothing is set.
fn setting(name: &str, usual: u64) -> u64 {
    match std::env::var(name) {
        Ok(text) => text
            .parse()
            .unwrap_or_else(|_| panic!("{name} is no number: {text}")),
        Err(_) => usual,
    }
}

fn calls_to_make() -> u64 {
    setting("BUTRASK_CALLS", 250_000)
}

fn seed() -> u64 {
    setting("BUTRASK_SEED", 20_261_116)
}

/// The library on words that are lent to it.
struct Words;

/// The library on bytes in the file form.
struct Bytes;

/// What a call answers that gives this.
fn answered<T>(result: Result<T, Refusal>, answer: impl FnOnce(T) -> Answer) -> Answer {
    result.map_or_else(Answer::Refused, answer)
}

/// A call on stores that Rust owns: one arm for each method of the wrapper.
fn on_stores(call: &Call, s: &mut State, stores: &mut Stores) -> Answer {
    let done = |()| Answer::Done;
    match call {
        Call::PerformU4 { qubit, gate } => answered(stores.perform_u4(s, *qubit, gate), done),
        Call::Measure {
            qubit,
            outcome,
            scale,
        } => answered(
            stores.measure(s, *qubit, *outcome, f64::from_bits(*scale)),
            done,
        ),
        Call::Premeasure { qubit } => answered(stores.premeasure(s, *qubit), |sums| {
            Answer::Sums(sums.map(f64::to_bits))
        }),
        Call::Fresh { width } => answered(stores.fresh(*width).map(|made| *s = made), done),
        Call::ImportDense { width, store, list } => {
            let made = stores.import_dense(*width, list, *store);
            answered(made.map(|made| *s = made), done)
        }
        Call::Check => answered(stores.check(s), done),
        Call::Lookup { key } => answered(stores.lookup(s, key), |found| match found {
            Some(amplitude) => Answer::Found(amplitude.patterns()),
            None => Answer::Absent,
        }),
        Call::Export => {
            // The store that the library named is the one that the part is of, whatever the state
            // says.
            let part = stores.export(s);
            let (left, right) = (stores.left.as_ptr(), stores.right.as_ptr());
            assert_ne!(left, right);
            let store = match part.as_ptr() {
                at if at == left => Side::Left,
                at if at == right => Side::Right,
                _ => panic!("an export that begins at no store"),
            };
            Answer::Exported {
                store,
                words: part.len(),
            }
        }
        Call::CollapseDelta { qubit, index, gate } => answered(
            stores.collapse_delta(s, *qubit, gate, *index),
            Answer::Change,
        ),
        Call::Forecast { qubit, gate } => {
            answered(stores.forecast(s, *qubit, gate), Answer::Change)
        }
        Call::Run { steps } => {
            let ran = stores.run(s, steps);
            Answer::Ran {
                done: ran.done as u64,
                stopped: ran.stopped,
            }
        }
        Call::Compare {
            width,
            left_out,
            qubit,
            a,
            b,
        } => {
            let compared = calls::compare(*width, left_out.then_some(*qubit), a, b);
            answered(compared, |compared| Answer::Compared {
                order: compared.order as i64,
                pairs: compared.pairs,
            })
        }
    }
}

impl Calls for Words {
    fn name(&self) -> &str {
        "library on words"
    }

    fn call(&mut self, call: &Call, mut state: State, lent: &mut Lent) -> Reply {
        // With room for a word more each has memory of its own, also where it has no words.
        let owned = |words: &mut Vec<u64>| {
            let mut words = std::mem::take(words);
            words.reserve_exact(1);
            words
        };
        let mut stores = Stores {
            left: owned(&mut lent.left),
            right: owned(&mut lent.right),
        };
        let answer = on_stores(call, &mut state, &mut stores);
        (lent.left, lent.right) = (stores.left, stores.right);
        Reply { answer, state }
    }
}

impl Calls for Bytes {
    fn name(&self) -> &str {
        "library on bytes"
    }

    fn call(&mut self, call: &Call, state: State, lent: &mut Lent) -> Reply {
        let row = call.row();
        let mut by = on_bytes(call, state, lent);
        let ungiven = by[Slice::Out].clone();
        let given = probe::call(&mut by);
        let after = by.words();
        *lent = after.lent();
        let gives = given == 0 || row.state == Use::Runs;
        assert!(
            gives || by[Slice::Out] == ungiven,
            "results of a refused call"
        );
        Reply {
            answer: Answer::of(row.results, given, &after[Slice::Out]),
            state: after.state(),
        }
    }
}

/// Whether the calls on bytes have room for every slice of a case.
fn fits_bytes(case: &Case) -> bool {
    8 * case.longest() <= MOST_BYTES
}

/// The cases that the calls on bytes have room for. Counts the calls of the others.
fn fitting<'a>(
    cases: impl Iterator<Item = Case> + 'a,
    left_out: &'a Cell<u64>,
) -> impl Iterator<Item = Case> + 'a {
    cases.filter(|case| {
        let fits = fits_bytes(case);
        if !fits {
            left_out.set(left_out.get() + case.calls.len() as u64);
        }
        fits
    })
}

/// Numbers of steps at which a walk that took eight steps at a time would begin a new piece: of runs
/// that are done, and before a step that is refused.
const RUNS_DONE: [u64; 5] = [7, 8, 9, 16, 17];
const RUNS_STOPPED: [u64; 3] = [7, 8, 16];

/// The model, and what it answered.
#[derive(Default)]
struct Counted {
    /// A run counts by what stopped it.
    counts: Counts,
    /// The accepted ones by the width after them, in the order of [`WIDTHS`].
    widths: [u64; WIDTHS.len()],
    /// Runs by how many steps they did and whether the next one stopped them.
    runs: BTreeMap<(u64, bool), u64>,
}

impl Calls for Counted {
    fn name(&self) -> &str {
        Model.name()
    }

    fn call(&mut self, call: &Call, s: State, lent: &mut Lent) -> Reply {
        let reply = Model.call(call, s, lent);
        if let Answer::Ran { done, stopped } = reply.answer {
            *self.runs.entry((done, stopped.is_some())).or_default() += 1;
        }
        let refusal = reply.answer.refusal();
        self.counts.add(call, refusal);
        // An export of a refused state is accepted too, of any width.
        let width = WIDTHS.iter().position(|w| *w == reply.state.width);
        if let (None, Some(i)) = (refusal, width) {
            self.widths[i] += 1;
        }
        reply
    }
}

impl Counted {
    fn runs_of(&self, steps: u64, stopped: bool) -> u64 {
        self.runs.get(&(steps, stopped)).copied().unwrap_or(0)
    }

    fn calls(&self) -> u64 {
        self.counts.calls()
    }

    /// The calls were of all kinds: many accepted and many refused, each call, each number, each
    /// width.
    fn of_all_kinds(&self) {
        often("accepted", self.counts.accepted(), 3);
        often("refused", self.counts.refused(), 3);
        for (name, count) in self.counts.by_call() {
            often(name, count, 200);
        }
        for (refusal, count) in self.counts.by_refusal() {
            often(&refusal.to_string(), count, 1_000);
        }
        for (width, count) in WIDTHS.iter().zip(self.widths) {
            often(&format!("width {width}"), count, 100);
        }
        for steps in RUNS_DONE {
            let what = format!("runs of {steps} steps");
            often(&what, self.runs_of(steps, false), 50_000);
        }
        for steps in RUNS_STOPPED {
            let what = format!("runs stopped after {steps} steps");
            often(&what, self.runs_of(steps, true), 100_000);
        }
    }
}

impl Display for Counted {
    fn fmt(&self, f: &mut Formatter<'_>) -> fmt::Result {
        write!(f, "{}; accepted of width", self.counts)?;
        for (width, count) in WIDTHS.iter().zip(self.widths) {
            write!(f, " {width}: {count}")?;
        }
        write!(f, "; runs done, by their steps")?;
        for steps in RUNS_DONE {
            write!(f, " {steps}: {}", self.runs_of(steps, false))?;
        }
        write!(f, "; stopped after")?;
        for steps in RUNS_STOPPED {
            write!(f, " {steps}: {}", self.runs_of(steps, true))?;
        }
        Ok(())
    }
}

/// More than one in so many of the random calls were these. With few calls chance decides, and
/// nothing is asked.
fn often(what: &str, count: u64, one_in: u64) {
    let calls = calls_to_make();
    assert!(calls < 100_000 || count > calls / one_in, "{what}: {count}");
}

/// The library and the model on all cases; panics with the smallest that differs.
fn same_as_model(library: &mut dyn Calls, cases: impl IntoIterator<Item = Case>) -> Counted {
    let mut model = Counted::default();
    let mut progress = Progress::new(&format!("{} beside the model", library.name()));
    let compared = drive::drive(cases, |case| {
        progress.at(model.calls());
        compare::same_words(library, &mut model, case)
    });
    if let Err(failure) = compared {
        panic!("{failure}");
    }
    model
}

/// The library and the reference on all cases.
fn same_as_reference(library: &mut dyn Calls, cases: impl IntoIterator<Item = Case>) -> Tally {
    let mut tally = Tally::default();
    let mut progress = Progress::new(&format!("{} beside the reference", library.name()));
    let compared = drive::drive(cases, |case| {
        progress.at(tally.counts.calls());
        compare::as_reference(library, case, &mut tally)
    });
    if let Err(failure) = compared {
        panic!("{failure}");
    }
    tally
}

/// The seed of a comparison, said before it begins.
fn said(seed: u64, what: &str) -> u64 {
    say(&format!("{what}: seed {seed}, {} calls", calls_to_make()));
    seed
}

#[test]
fn every_word_as_the_model_has_it() {
    let seed = said(seed(), "on words beside the model");
    let model = same_as_model(&mut Words, drive::all_cases(seed, calls_to_make()));
    println!("seed {seed}, on words, every word the same: {model}");
    assert!(model.calls() >= calls_to_make());
    model.of_all_kinds();
}

#[test]
fn every_byte_as_the_model_has_it() {
    let seed = said(seed() + 1, "on bytes beside the model");
    let left_out = Cell::new(0);
    let cases = fitting(drive::all_cases(seed, calls_to_make()), &left_out);
    let model = same_as_model(&mut Bytes, cases);
    println!(
        "seed {seed}, on bytes, every byte the same: {model}; {} left out, too long for bytes",
        left_out.get()
    );
    let calls = calls_to_make();
    assert!(model.calls() + left_out.get() >= calls);
    assert!(calls < 100_000 || left_out.get() < calls / 100);
    model.of_all_kinds();
}

#[test]
fn all_small_states_as_the_model_has_them() {
    let small = exhaustive::cases()
        .chain(exhaustive::mirrored_cases())
        .chain(exhaustive::tight_cases())
        .chain(exhaustive::dense_cases())
        .chain(exhaustive::comparison_cases());
    let model = same_as_model(&mut Words, small);
    println!(
        "on all small states, left and right, in stores with and without room, and on small dense \
         lists and keys: {model}"
    );
    assert!(model.calls() > 500_000);
}

#[test]
fn accepted_calls_as_the_reference_has_them() {
    if !reference_is_there() {
        return;
    }
    let on_words = said(seed(), "on words beside the reference");
    let tally = same_as_reference(&mut Words, drive::sound_cases(on_words, calls_to_make()));
    println!("seed {on_words}, on words: {tally}");
    every_call_accepted(&tally);
    let on_bytes = said(seed() + 2, "on bytes beside the reference");
    let left_out = Cell::new(0);
    let cases = drive::sound_cases(on_bytes, calls_to_make());
    let tally = same_as_reference(&mut Bytes, fitting(cases, &left_out));
    println!(
        "seed {on_bytes}, on bytes: {tally}; {} left out, too long for bytes",
        left_out.get()
    );
    every_call_accepted(&tally);
}

fn every_call_accepted(tally: &Tally) {
    for (name, count) in tally.counts.by_call() {
        often(name, count, 200);
    }
}

#[test]
fn the_recorded_answers() {
    let list = include_str!("../differential/tests/answers.txt");
    let mut blocks = 0;
    for block in recorded::blocks(list) {
        let case = recorded::case(block).unwrap_or_else(|e| panic!("{e}\n{block}"));
        for mut library in libraries() {
            let given = recorded::block(library.as_mut(), &case);
            assert_eq!(given.trim_end(), block.trim_end(), "{}", library.name());
        }
        blocks += 1;
    }
    assert!(blocks > 50, "{blocks}");
}

/// A run on bytes goes in pieces of at most 819 steps; together they give what the run of the whole
/// list gives.
#[test]
fn a_run_in_pieces_is_the_run() {
    let halves = Gate::real(0.5, 0.5, -0.5, 0.5);
    let mut steps: Vec<Step> = (0..2000).map(|i| gate_step(i % 3, &halves)).collect();
    for refused in [None, Some(818), Some(819), Some(1700)] {
        if let Some(at) = refused {
            steps[at] = measure_step(64, true, 1.0);
        }
        let case = Case::new(
            State::new(1, Side::Left, [1, 0], Some(0)),
            [vec![0, 1.0f64.to_bits(), 0], vec![9; 30]].concat(),
            vec![9; 33],
            vec![],
        );
        let run = |library: &mut dyn Calls, piece: usize| {
            let (mut state, mut lent) = (case.state, case.lent.clone());
            let mut done = 0;
            for steps in steps.chunks(piece) {
                let call = Call::Run {
                    steps: steps.to_vec(),
                };
                let reply = library.call(&call, state, &mut lent);
                let Answer::Ran {
                    done: more,
                    stopped,
                } = reply.answer
                else {
                    panic!("{:?}", reply.answer)
                };
                state = reply.state;
                done += more;
                if stopped.is_some() {
                    return (done, stopped, state, lent);
                }
            }
            (done, None, state, lent)
        };
        let whole = run(&mut Words, steps.len());
        assert_eq!(whole.0, refused.map_or(2000, |at| at as u64));
        assert_eq!(run(&mut Bytes, MOST_BYTES / (8 * STEP_WORDS)), whole);
        assert_eq!(run(&mut Model, steps.len()), whole);
        if let Some(at) = refused {
            steps[at] = gate_step(0, &halves);
        }
    }
}

/// A slice of too many bytes gives 101 and changes no byte.
#[test]
fn too_many_bytes_change_nothing() {
    let numbers = TABLE.iter().map(|row| row.number).chain([0, NEXT]);
    for number in numbers {
        for slice in Slice::ALL {
            for length in [MOST_BYTES + 1, MOST_BYTES + 7, MOST_BYTES + 8] {
                let mut by = ByNumber::empty(number);
                for slice in Slice::ALL {
                    by[slice] = vec![3; 8 * STATE_WORDS];
                }
                by[slice].resize(length, 3);
                let before = by.clone();
                let answer = probe::call(&mut by);
                assert_eq!(
                    answer, WRONG_BYTES,
                    "call {number}, {slice:?}, {length} bytes"
                );
                assert!(by == before);
            }
        }
    }
}

/// A number that no call has: the next one.
const NEXT: u64 = TABLE[TABLE.len() - 1].number + 1;

#[test]
fn stray_bytes_are_read_as_the_specification_has_them() {
    stray::stray_bytes(&mut probe::call);
    stray::stray_bytes_in_their_place(&mut probe::call);
    stray::stray_steps(&mut probe::call);
    stray::lengths_of_comparisons(&mut probe::call);
}

/// Random calls of every kind on bytes of any length, beside the model: at least 100,000, so that
/// it is not chance which answers they give.
#[test]
fn bytes_of_any_length_are_as_the_model_has_them() {
    let (seed, calls) = (seed() + 3, calls_to_make().max(100_000));
    say(&format!(
        "on bytes of any length: seed {seed}, {calls} calls"
    ));
    let mut r = Random::new(seed);
    let mut answers = BTreeMap::new();
    // Runs that were stopped by stray bytes, by the whole steps before these.
    let mut strays = BTreeMap::new();
    let cases = drive::all_cases(seed, calls).filter(fits_bytes);
    for mut case in cases {
        // Runs of many steps are seldom, so none is passed over.
        let long = |call: &Call| matches!(call, Call::Run { steps } if steps.len() > 6);
        let at = case.calls.iter().position(long);
        let at = at.unwrap_or_else(|| r.index(case.calls.len()));
        case.calls.swap(0, at);
        let by = lengthened(&mut r, &case);
        let (mut given, mut expected) = (by.clone(), by.clone());
        let [answer, of_model] = [probe::call(&mut given), boundary::as_read(&mut expected)];
        assert!(
            answer == of_model && given == expected,
            "{answer} and the model {of_model}: {by:?}"
        );
        *answers.entry((by.number, answer)).or_insert(0u64) += 1;
        if let Some(steps) = stray_after(&by, answer, &given) {
            *strays.entry(steps).or_insert(0u64) += 1;
        }
    }
    println!("seed {seed}, calls on bytes by number and answer: {answers:?}; runs with stray bytes by their whole steps: {strays:?}");
    // The boundary's own answers, and those that stray bytes give: odd lists, keys that are none,
    // steps that are not whole.
    let seldom = [
        (number("perform_u4"), WRONG_LENGTH),
        (number("perform_u4"), WRONG_BYTES),
        (NEXT, NO_CALL),
        (number("import_dense"), Refusal::Length.number()),
        (number("lookup"), Refusal::Length.number()),
        (number("compare"), Refusal::Length.number()),
        (number("compare"), WRONG_LENGTH),
        (number("run"), Refusal::Step.number()),
    ];
    for seldom in seldom {
        assert!(
            answers.get(&seldom).copied().unwrap_or(0) >= calls / 20_000,
            "call and answer {seldom:?}"
        );
    }
    // After the first piece in which the library runs a list.
    assert!(strays.range(8..).map(|(_, count)| count).sum::<u64>() >= calls / 50_000);
}

fn number(name: &str) -> u64 {
    Row::by_name(name).expect("a call of the table").number
}

/// How many whole steps a run did that was then stopped by stray bytes.
fn stray_after(by: &OnBytes, answer: u64, after: &OnBytes) -> Option<usize> {
    let (steps, rest) = by[Slice::Arg].as_chunks::<{ 8 * STEP_WORDS }>();
    let stopped = by.number == number("run") && answer == Refusal::Step.number();
    let all_done = after[Slice::Out] == to_bytes(&[steps.len() as u64]);
    (stopped && !rest.is_empty() && all_done).then_some(steps.len())
}

/// Words after the last whole step of a list, by the call on words.
#[test]
fn stray_words_are_a_step() {
    stray::stray_steps(&mut |by| {
        if by[Slice::Arg].len() % 8 != 0 {
            return probe::call(by);
        }
        let words = by.words();
        let (mut state, Lent { left, right, .. }) = (words.state(), words.lent());
        let mut stores = Stores { left, right };
        let ran = stores.run_words(&mut state, &words[Slice::Arg]);
        by[Slice::State] = to_bytes(&state.words());
        by[Slice::Left] = to_bytes(&stores.left);
        by[Slice::Right] = to_bytes(&stores.right);
        by[Slice::Out] = to_bytes(&[ran.done as u64]);
        ran.stopped.map_or(0, Refusal::number)
    });
}

/// The case of the file that BUTRASK_CASE names, in the form that a difference is printed in.
#[test]
fn the_case_of_a_file() {
    let Ok(file) = std::env::var("BUTRASK_CASE") else {
        return;
    };
    let text = std::fs::read_to_string(&file).unwrap_or_else(|e| panic!("{file}: {e}"));
    let case: Case = text.parse().unwrap_or_else(|e| panic!("{file}: {e}"));
    same_as_model(&mut Words, [case.clone()]);
    if fits_bytes(&case) {
        same_as_model(&mut Bytes, [case.clone()]);
    }
    println!("{file}: every word as the model has it");
    if reference_is_there() {
        if fits_bytes(&case) {
            same_as_reference(&mut Bytes, [case.clone()]);
        }
        let tally = same_as_reference(&mut Words, [case]);
        println!("{file}: {tally}");
    }
}

/// The list of the program `replay`, through the function on bytes: unusual state words, results
/// that stay after a refusal, slices of a wrong length.
#[test]
fn the_list_of_replay() {
    let list = std::fs::read(concat!(
        env!("CARGO_MANIFEST_DIR"),
        "/../crates/replay/stdin"
    ));
    let items = listed::items(&to_words(&list.expect("the list is there")));
    for (i, item) in items.iter().enumerate() {
        let mut by = item.before.bytes();
        assert_eq!(probe::call(&mut by), item.answer, "item {}", i + 1);
        assert!(by == item.after.bytes(), "item {}", i + 1);
    }
    assert!(items.len() > 2_000, "{}", items.len());
    println!("{} calls of the list of replay", items.len());
}

/// A library that answers wrongly is told apart: the comparison is no formality.
#[test]
fn a_word_too_many_is_told() {
    struct Wrong;
    impl Calls for Wrong {
        fn name(&self) -> &str {
            "library with one wrong word"
        }
        fn call(&mut self, call: &Call, s: State, lent: &mut Lent) -> Reply {
            let reply = Words.call(call, s, lent);
            if let (Call::PerformU4 { .. }, Some(word)) = (call, lent.right.last_mut()) {
                *word ^= 1;
            }
            reply
        }
    }
    let found = drive::drive(drive::all_cases(seed(), 1_000), |case| {
        compare::same_words(&mut Wrong, &mut Model, case)
    });
    assert!(found.is_err());
}

/// An answer that no call gives is a difference with its case, and no panic.
#[test]
fn a_strange_answer_is_told() {
    struct Wrong;
    impl Calls for Wrong {
        fn name(&self) -> &str {
            "library with a strange answer"
        }
        fn call(&mut self, call: &Call, s: State, lent: &mut Lent) -> Reply {
            let mut reply = Bytes.call(call, s, lent);
            if let Call::Forecast { .. } = call {
                reply.answer = Answer::of(Results::Change, 100, &[0]);
            }
            reply
        }
    }
    let found = drive::drive(drive::all_cases(seed(), 1_000).filter(fits_bytes), |case| {
        compare::same_words(&mut Wrong, &mut Model, case)
    });
    let text = found.expect_err("it is found").to_string();
    assert!(text.contains("gives Reply { answer: Strange(100)") && text.contains("\nforecast "));
}
