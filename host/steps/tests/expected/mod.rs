//! What the program `trial` prints, by the calls of the model (SPECIFICATION 9).
use butrask_calls::{
    call_of_step, to_words, Answer, Call, Calls, Lent, Refusal, Side, State, Step,
};
use butrask_model::{entries, Model};
use butrask_steps::STEP_BYTES;
use std::fmt::Write;

const WIDTH: u64 = 1;

/// How many records a store holds.
const RECORDS: usize = 1024;

/// A trial: the state after the steps so far, and its stores.
struct Trial {
    state: State,
    lent: Lent,
}

impl Trial {
    fn new() -> Trial {
        let store = vec![0; RECORDS * (WIDTH as usize + 2)];
        let mut trial = Trial {
            // Replaced by the fresh one.
            state: State::new(WIDTH, Side::Left, [0, 0], None),
            lent: Lent::stores(store.clone(), store),
        };
        let made = trial.perform(&Call::Fresh { width: WIDTH });
        assert_eq!(made, Answer::Done);
        trial
    }

    fn perform(&mut self, call: &Call) -> Answer {
        let reply = Model.call(call, self.state, &mut self.lent);
        self.state = reply.state;
        reply.answer
    }

    /// Takes a step of any kind. Bytes that are not a whole one are refused as a malformed one is.
    fn step(&mut self, bytes: &[u8]) -> Answer {
        let step: Option<Step> = to_words(bytes).try_into().ok();
        match step.as_ref().and_then(call_of_step) {
            Some(call) => self.perform(&call),
            None => Answer::Refused(Refusal::Step),
        }
    }
}

/// The program's output for the bytes of its input.
pub fn output(input: &[u8]) -> String {
    let mut trial = Trial::new();
    let mut text = String::new();
    for (i, bytes) in input.chunks(STEP_BYTES).enumerate() {
        let answer = trial.step(bytes);
        let number = answer.refusal().map_or(0, Refusal::number);
        let [n0, n1] = trial.state.sizes();
        write!(text, "step {} answer {number} sizes {n0} {n1}", i + 1).unwrap();
        if let Answer::Sums([zero, one]) = answer {
            write!(text, " sums {zero:016x} {one:016x}").unwrap();
        }
        text.push('\n');
    }
    match trial.state.tag {
        Some(qubit) => writeln!(text, "tag {qubit}").unwrap(),
        None => writeln!(text, "tag none").unwrap(),
    }
    let front = trial.lent.store(trial.state.front);
    for entry in entries(&trial.state, front).iter().flatten() {
        let (key, [re, im]) = (entry.key[0], entry.amplitude);
        writeln!(text, "{key:016x} {re:016x} {im:016x}").unwrap();
    }
    text
}
