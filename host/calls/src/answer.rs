//! What is lent to a call, what it answers, and who performs it.
use crate::{Call, Refusal, Results, Side, State};

/// What the caller lends: the words of the two stores, and of a third buffer for the calls that
/// take one.
#[derive(Clone, Debug, Default, PartialEq, Eq)]
pub struct Lent {
    pub left: Vec<u64>,
    pub right: Vec<u64>,
    pub third: Vec<u64>,
}

impl Lent {
    /// Two stores, and no third buffer.
    pub fn stores(left: Vec<u64>, right: Vec<u64>) -> Lent {
        Lent {
            left,
            right,
            third: vec![],
        }
    }

    pub fn store(&self, side: Side) -> &Vec<u64> {
        match side {
            Side::Left => &self.left,
            Side::Right => &self.right,
        }
    }

    pub fn store_mut(&mut self, side: Side) -> &mut Vec<u64> {
        match side {
            Side::Left => &mut self.left,
            Side::Right => &mut self.right,
        }
    }
}

/// What a call answers, beside the state after it.
#[derive(Clone, Copy, Debug, PartialEq, Eq)]
pub enum Answer {
    Refused(Refusal),
    /// Accepted, by a call that has nothing else to say.
    Done,
    /// Of a lookup: the bit patterns of re and im.
    Found([u64; 2]),
    Absent,
    /// The part that is exported: the first `words` words of this store. A state that the table
    /// refuses has an empty part.
    Exported {
        store: Side,
        words: usize,
    },
    /// The bit patterns of the sums for the outcomes 0 and 1.
    Sums([u64; 2]),
    /// Of an estimate or a forecast.
    Change(i64),
    /// Of a run: the number of steps done, and what stopped it.
    Ran {
        done: u64,
        stopped: Option<Refusal>,
    },
    /// Of two keys: the order of the first to the second, −1, 0 or 1, and how many pairs of words
    /// were compared.
    Compared {
        order: i64,
        pairs: u64,
    },
    /// A number that is no refusal's. The model never gives it, so that it is a difference.
    Strange(u64),
}

impl Answer {
    /// The answer that a number and words of results stand for.
    pub fn of(results: Results, number: u64, out: &[u64]) -> Answer {
        let refusal = Refusal::from_number(number);
        if number != 0 && refusal.is_none() {
            return Answer::Strange(number);
        }
        match (results, refusal) {
            (Results::Done, stopped) => Answer::Ran {
                done: out[0],
                stopped,
            },
            (_, Some(refusal)) => Answer::Refused(refusal),
            (Results::Nothing | Results::Counts, None) => Answer::Done,
            (Results::Amplitude, None) if out[0] == 0 => Answer::Absent,
            (Results::Amplitude, None) => Answer::Found([out[1], out[2]]),
            (Results::Part, None) => Answer::Exported {
                store: Side::of(out[0]),
                words: out[1] as usize,
            },
            (Results::Sums, None) => Answer::Sums([out[0], out[1]]),
            (Results::Change, None) => Answer::Change(out[0] as i64),
            (Results::Comparison, None) => Answer::Compared {
                order: out[0] as i64,
                pairs: out[1],
            },
        }
    }

    /// Its number. Its results go over the words for them, which stay where it has none.
    pub fn give(&self, out: &mut [u64]) -> u64 {
        let (number, results) = match *self {
            Answer::Refused(refusal) => (refusal.number(), vec![]),
            Answer::Done => (0, vec![]),
            Answer::Absent => (0, vec![0; Results::Amplitude.words()]),
            Answer::Found([re, im]) => (0, vec![1, re, im]),
            Answer::Exported { store, words } => (0, vec![store.word(), words as u64]),
            Answer::Sums(sums) => (0, sums.to_vec()),
            Answer::Change(change) => (0, vec![change as u64]),
            Answer::Ran { done, stopped } => (stopped.map_or(0, Refusal::number), vec![done]),
            Answer::Compared { order, pairs } => (0, vec![order as u64, pairs]),
            Answer::Strange(number) => (number, vec![]),
        };
        out[..results.len()].copy_from_slice(&results);
        number
    }

    /// What refused the call, or stopped the run.
    pub fn refusal(&self) -> Option<Refusal> {
        match *self {
            Answer::Refused(refusal) => Some(refusal),
            Answer::Ran { stopped, .. } => stopped,
            _ => None,
        }
    }
}

/// What a call gives: its answer and the state after it. A refused call gives the state that it was
/// given.
#[derive(Clone, Copy, Debug, PartialEq, Eq)]
pub struct Reply {
    pub answer: Answer,
    pub state: State,
}

/// A library that has the calls of the table.
pub trait Calls {
    /// What it is called in a report.
    fn name(&self) -> &str;

    /// Performs a call on a state in what is lent.
    fn call(&mut self, call: &Call, state: State, lent: &mut Lent) -> Reply;
}
