//! The calls at the C boundary: by their numbers, on bytes of any length. [`as_read`] says by the
//! model what they give, stray bytes included, which are read as what is not whole (SPECIFICATION
//! 14.2). [`crate::damage::lengthened`] makes inputs with wrong lengths.
use butrask_calls::{to_bytes, to_words, Answer, Arg, ByNumber, Call, Calls, Kind, Lent, Place};
use butrask_calls::{Refusal, Results, Row, Side, Slice, State, Step, Use, Value, GATE_WORDS};
use butrask_calls::{
    MOST_BYTES, NO_CALL, STATE_WORDS, STEP_WORDS, WIDTHS, WRONG_BYTES, WRONG_LENGTH,
};
use butrask_model::Model;

/// A call on bytes.
pub type OnBytes = ByNumber<u8>;

/// A call with the right lengths, and words for results that hold no result.
pub fn on_bytes(call: &Call, state: State, lent: &Lent) -> OnBytes {
    ByNumber::new(call, state, lent, 0x4f4f_4f4f_4f4f_4f4f).bytes()
}

/// The words that a slice has to have: a state, a gate and results have one length, all others any,
/// and so has the state's slice of a call that takes none.
pub fn right_length(row: &Row, slice: Slice) -> Option<usize> {
    let is_gate = |arg: &Arg| arg.kind == Kind::Gate && arg.place == Place::Slice(slice);
    match slice {
        Slice::State => (row.state != Use::Ignores).then_some(STATE_WORDS),
        Slice::Out => (row.results != Results::Nothing).then_some(row.results.words()),
        _ => row.args.iter().any(is_gate).then_some(GATE_WORDS),
    }
}

/// How many words a call is lent of so many bytes of a state, a gate or results: none where stray
/// bytes are left.
pub fn exact(bytes: usize) -> usize {
    if bytes % 8 == 0 {
        bytes / 8
    } else {
        0
    }
}

/// Makes the call as the specification and the header have it, and gives its number.
pub fn as_read(by: &mut OnBytes) -> u64 {
    if Slice::ALL.iter().any(|slice| by[*slice].len() > MOST_BYTES) {
        return WRONG_BYTES;
    }
    let Some(row) = Row::by_number(by.number) else {
        return NO_CALL;
    };
    let is_right = |slice: &Slice| {
        right_length(row, *slice).is_none_or(|words| words == exact(by[*slice].len()))
    };
    if !Slice::ALL.iter().all(is_right) {
        return WRONG_LENGTH;
    }
    // A store's capacity is the number of whole records in it, so stray bytes are outside it.
    let words = by.words();
    let state = match row.state {
        Use::Ignores => State::of([0; STATE_WORDS]),
        _ => words.state(),
    };
    let mut lent = words.lent();
    let (answer, after) = match unusual(by, row, state, &mut lent) {
        Some(reply) => reply,
        None => model(&whole_call(&words, row), state, &mut lent),
    };
    let mut out = words[Slice::Out].clone();
    let number = answer.give(&mut out);
    if row.state == Use::Runs || (row.state == Use::Makes && number == 0) {
        over(&mut by[Slice::State], &after.words());
    }
    over(&mut by[Slice::Left], &lent.left);
    over(&mut by[Slice::Right], &lent.right);
    over(&mut by[Slice::Third], &lent.third);
    over(&mut by[Slice::Out], &out);
    number
}

/// Words over the first bytes of a slice.
fn over(bytes: &mut [u8], words: &[u64]) {
    bytes[..8 * words.len()].copy_from_slice(&to_bytes(words));
}

fn model(call: &Call, state: State, lent: &mut Lent) -> (Answer, State) {
    let reply = Model.call(call, state, lent);
    (reply.answer, reply.state)
}

/// The call of whole words.
fn whole_call(by: &ByNumber<u64>, row: &Row) -> Call {
    let value = |arg: &Arg| match arg.place {
        Place::Slice(slice) => Value::Words(by[slice].clone()),
        Place::Number(i) => match (arg.kind, by.numbers[i]) {
            (Kind::Outcome, outcome) => Value::Flag(outcome == 1),
            (Kind::Store, word) => Value::Side(Side::of(word)),
            (Kind::LeftOut, word) => Value::Flag(word != 0),
            (_, number) => Value::Number(number),
        },
    };
    Call::of(row, row.args.iter().map(value)).expect("the kinds of the row")
}

/// What a call gives by an outcome that is neither 0 nor 1, or an argument that is not whole words.
fn unusual(by: &OnBytes, row: &Row, state: State, lent: &mut Lent) -> Option<(Answer, State)> {
    let refused = |refusal| Some((Answer::Refused(refusal), state));
    for arg in row.args {
        match (arg.kind, arg.place) {
            (Kind::Outcome, Place::Number(i)) if by.numbers[i] > 1 => {
                return refused(Refusal::Step)
            }
            (Kind::Steps, Place::Slice(slice)) => return Some(run(&by[slice], state, lent)),
            (_, Place::Slice(slice)) if by[slice].len().is_multiple_of(8) => {}
            // It is odd. 1 and 6 come before 7, and 6 speaks of parts, which are whole words.
            (Kind::Pairs, Place::Slice(slice)) => {
                let width = by.numbers[0];
                let finite = |word: &u64| f64::from_bits(*word).is_finite();
                return refused(if !WIDTHS.contains(&width) {
                    Refusal::Width
                } else if !to_words(&by[slice]).iter().all(finite) {
                    Refusal::NotFinite
                } else {
                    Refusal::Length
                });
            }
            // It is not width words, and no words are not either.
            (Kind::Key, Place::Slice(slice)) => {
                let mut none = by.words();
                none[slice].clear();
                return Some(model(&whole_call(&none, row), state, lent));
            }
            _ => {}
        }
    }
    None
}

/// Bytes after the last whole step are one step more, refused with 10 when the run reaches it;
/// where there is no whole step that comes before anything else.
fn run(arg: &[u8], state: State, lent: &mut Lent) -> (Answer, State) {
    let (steps, rest) = arg.as_chunks::<{ 8 * STEP_WORDS }>();
    let step = |bytes: &[u8; 8 * STEP_WORDS]| -> Step {
        to_words(bytes).try_into().expect("the words of a step")
    };
    let steps: Vec<Step> = steps.iter().map(step).collect();
    let ran = match (steps.is_empty(), rest.is_empty()) {
        (true, false) => (
            Answer::Ran {
                done: 0,
                stopped: None,
            },
            state,
        ),
        _ => model(&Call::Run { steps }, state, lent),
    };
    match ran {
        (
            Answer::Ran {
                done,
                stopped: None,
            },
            after,
        ) if !rest.is_empty() => {
            let stopped = Some(Refusal::Step);
            (Answer::Ran { done, stopped }, after)
        }
        ran => ran,
    }
}
