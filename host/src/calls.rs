//! Every call on a state, runs, a gate's weight and comparisons of keys, by the proved library, on
//! stores that Rust owns, without copying. The meaning of each call is stated by
//! `crates/calls/specs/Calls.antt`, that of runs by `crates/step_lists/specs/Lists.antt`, and both
//! in words by docs/SPECIFICATION.md; `include/butrask.h` has the same interface for C.
//!
//! ```
//! use butrask_host::calls::{measure_step, Gate, Refusal, Stores};
//! use butrask_host::Amplitude;
//!
//! // Room for four records of width 1 in each store, and gate 1 1 -1 1 on qubit 0 of a fresh
//! // state.
//! let mut stores = Stores::with_records(1, 4);
//! let mut state = stores.fresh(1)?;
//! stores.perform_u4(&mut state, 0, &Gate::real(1.0, 1.0, -1.0, 1.0))?;
//! assert_eq!((state.n0, state.n1, state.tag), (1, 1, Some(0)));
//! assert_eq!(stores.premeasure(&state, 0)?, [1.0, 1.0]);
//! assert_eq!(stores.lookup(&state, &[1])?, Some(Amplitude { re: 1.0, im: 0.0 }));
//!
//! // A refused call leaves the state as it was, and says why it was refused.
//! assert_eq!(stores.measure(&mut state, 64, true, 1.0), Err(Refusal::Qubit));
//! assert_eq!(Refusal::Qubit.to_string(), "the qubit is 64 * width or more: 2");
//! assert_eq!((state.n0, state.n1), (1, 1));
//!
//! // The scale that leaves squares with the sum 1 is the square root of the outcome's sum.
//! let mut other = Stores::with_records(1, 4);
//! let mut measured = other.fresh(1)?;
//! other.perform_u4(&mut measured, 0, &Gate::real(3.0, 4.0, -4.0, 3.0))?;
//! let sums = other.premeasure(&measured, 0)?;
//! assert_eq!(sums, [9.0, 16.0]);
//! other.measure(&mut measured, 0, true, sums[1].sqrt())?;
//! assert_eq!(other.premeasure(&measured, 0)?, [0.0, 1.0]);
//!
//! // A run stops at the first step that is refused.
//! let ran = stores.run(&mut state, &[measure_step(0, true, 1.0), measure_step(64, true, 1.0)]);
//! assert_eq!((ran.done, ran.stopped), (1, Some(Refusal::Qubit)));
//! assert_eq!(stores.export(&state), [1, 1.0f64.to_bits(), 0]);
//! # Ok::<(), Refusal>(())
//! ```
use crate::c;
use butrask_calls::{answer_text, Results, STATE_WORDS};
pub use butrask_calls::{gate_step, measure_step, Amplitude, Gate, Refusal, Side, State, Step};
use std::cmp::Ordering;

/// How many words for results a gate gives: none yet.
const GATE_RESULTS: usize = Results::Counts.words();

/// The weight of a gate that the exact table covers (SPECIFICATION 11): its parts are whole and at
/// most 16 in size, and its columns orthogonal and of one squared length, which is the weight.
///
/// ```
/// use butrask_host::calls::{gate_weight, Gate};
///
/// assert_eq!(gate_weight(&Gate::real(3.0, 4.0, 3.0, -4.0)), Some(25.0));
/// assert_eq!(gate_weight(&Gate::real(1.0, 1.0, 1.0, 1.0)), None);
/// ```
pub fn gate_weight(gate: &Gate) -> Option<f64> {
    let mut out = [0; 2];
    // Always done: the lengths of the slices are right.
    c::butrask_gate_weight(&gate.words(), &mut out);
    let [covered, weight] = out;
    (covered != 0).then(|| f64::from_bits(weight))
}

/// What a comparison of two keys gives.
#[derive(Clone, Copy, Debug, PartialEq, Eq)]
pub struct Compared {
    /// Of the first key to the second.
    pub order: Ordering,
    /// How many pairs of words were compared, the first that differs being the last of them: the
    /// width where none differs.
    pub pairs: u64,
}

/// Compares two keys of `width` words, word 0 first (SPECIFICATION 1.2). The bit of a qubit that is
/// left out is taken for clear in both.
///
/// ```
/// use butrask_host::calls::{compare, Compared, Refusal};
/// use std::cmp::Ordering;
///
/// // 3 and 1 differ in bit 1 alone, so the second pair of words is compared where qubit 1 is left
/// // out.
/// let (a, b) = ([3, 2], [1, 9]);
/// let first = Compared { order: Ordering::Greater, pairs: 1 };
/// assert_eq!(compare(2, None, &a, &b), Ok(first));
/// let second = Compared { order: Ordering::Less, pairs: 2 };
/// assert_eq!(compare(2, Some(1), &a, &b), Ok(second));
///
/// assert_eq!(compare(2, Some(128), &a, &b), Err(Refusal::Qubit));
/// assert_eq!(compare(2, None, &a, &b[..1]), Err(Refusal::Length));
/// ```
pub fn compare(
    width: u64,
    left_out: Option<u64>,
    a: &[u64],
    b: &[u64],
) -> Result<Compared, Refusal> {
    let mut out = [0; Results::Comparison.words()];
    done(c::butrask_compare(
        width as usize,
        u64::from(left_out.is_some()),
        left_out.unwrap_or(0) as usize,
        a,
        b,
        &mut out,
    ))?;
    let [order, pairs] = out;
    Ok(Compared {
        order: (order as i64).cmp(&0),
        pairs,
    })
}

/// What a run gives: the number of steps done, and what stopped it, if anything did.
#[derive(Clone, Copy, Debug, PartialEq, Eq)]
pub struct Ran {
    pub done: usize,
    pub stopped: Option<Refusal>,
}

/// The two stores: words of records, `width + 2` to a record.
#[derive(Clone, Debug, PartialEq, Eq)]
pub struct Stores {
    pub left: Vec<u64>,
    pub right: Vec<u64>,
}

impl Stores {
    /// Stores of zeros with room for `records` records of a width in each.
    pub fn with_records(width: u64, records: usize) -> Stores {
        let words = (width as usize + 2) * records;
        Stores {
            left: vec![0; words],
            right: vec![0; words],
        }
    }

    /// A fresh state in the left store: key 0 with amplitude 1, tag 0.
    pub fn fresh(&mut self, width: u64) -> Result<State, Refusal> {
        let mut s = [0; STATE_WORDS];
        done(c::butrask_fresh(width as usize, &mut s, &mut self.left))?;
        Ok(State::of(s))
    }

    /// Whether a state is accepted (SPECIFICATION 1.5).
    pub fn check(&self, state: &State) -> Result<(), Refusal> {
        done(c::butrask_check(&state.words(), &self.left, &self.right))
    }

    /// The amplitude at a key of `width` words, if there is one.
    pub fn lookup(&self, state: &State, key: &[u64]) -> Result<Option<Amplitude>, Refusal> {
        let mut out = [0; Results::Amplitude.words()];
        done(c::butrask_lookup(
            &state.words(),
            key,
            &self.left,
            &self.right,
            &mut out,
        ))?;
        let [found, re, im] = out;
        Ok((found != 0).then(|| Amplitude::from_patterns([re, im])))
    }

    /// The records of a state; none where [`Stores::check`] refuses it.
    pub fn export(&self, state: &State) -> &[u64] {
        let mut out = [0; Results::Part.words()];
        // Always done: the slices have the right lengths.
        c::butrask_export(&state.words(), &self.left, &self.right, &mut out);
        let [store, words] = out;
        match Side::of(store) {
            Side::Left => &self.left[..words as usize],
            Side::Right => &self.right[..words as usize],
        }
    }

    /// The sums of re² + im² for outcomes 0 and 1.
    pub fn premeasure(&self, state: &State, qubit: u64) -> Result<[f64; 2], Refusal> {
        let mut out = [0; Results::Sums.words()];
        done(c::butrask_premeasure(
            &state.words(),
            qubit as usize,
            &self.left,
            &self.right,
            &mut out,
        ))?;
        Ok(out.map(f64::from_bits))
    }

    /// Estimates from entry `index`, modulo the number of entries, by how much a gate would change
    /// that number (SPECIFICATION 5.2).
    pub fn collapse_delta(
        &self,
        state: &State,
        qubit: u64,
        gate: &Gate,
        index: u64,
    ) -> Result<i64, Refusal> {
        let mut out = [0; Results::Change.words()];
        done(c::butrask_collapse_delta(
            &state.words(),
            qubit as usize,
            &gate.words(),
            index as usize,
            &self.left,
            &self.right,
            &mut out,
        ))?;
        Ok(out[0] as i64)
    }

    /// The sum of [`Stores::collapse_delta`] over all entries, halved toward zero.
    pub fn forecast(&self, state: &State, qubit: u64, gate: &Gate) -> Result<i64, Refusal> {
        let mut out = [0; Results::Change.words()];
        done(c::butrask_forecast(
            &state.words(),
            qubit as usize,
            &gate.words(),
            &self.left,
            &self.right,
            &mut out,
        ))?;
        Ok(out[0] as i64)
    }

    /// A gate on a qubit. After a refusal the state and its records are as they were. A gate that
    /// is refused after it repartitioned the records leaves these at the start of the back store.
    pub fn perform_u4(
        &mut self,
        state: &mut State,
        qubit: u64,
        gate: &Gate,
    ) -> Result<(), Refusal> {
        let mut s = state.words();
        let mut out = [0; GATE_RESULTS];
        done(c::butrask_perform_u4(
            &mut s,
            qubit as usize,
            &gate.words(),
            &mut self.left,
            &mut self.right,
            &mut out,
        ))?;
        *state = State::of(s);
        Ok(())
    }

    /// Keeps the entries with an outcome of a qubit and divides them by a scale, usually the square
    /// root of the outcome's sum by [`Stores::premeasure`]. After a refusal the state is as it was.
    pub fn measure(
        &mut self,
        state: &mut State,
        qubit: u64,
        outcome: bool,
        scale: f64,
    ) -> Result<(), Refusal> {
        let mut s = state.words();
        done(c::butrask_measure(
            &mut s,
            qubit as usize,
            outcome as u64,
            scale.to_bits(),
            &mut self.left,
            &mut self.right,
        ))?;
        *state = State::of(s);
        Ok(())
    }

    /// Runs steps in order, to the first that is refused. The state is the one after the steps that
    /// were done, also where the run was stopped.
    pub fn run(&mut self, state: &mut State, steps: &[Step]) -> Ran {
        self.run_words(state, steps.as_flattened())
    }

    /// The same for steps as words, ten to a step. Words after the last whole step are a step that
    /// is refused with [`Refusal::Step`].
    pub fn run_words(&mut self, state: &mut State, steps: &[u64]) -> Ran {
        let mut s = state.words();
        let mut out = [0; Results::Done.words()];
        let stopped = done(c::butrask_run(
            &mut s,
            steps,
            &mut self.left,
            &mut self.right,
            &mut out,
        ))
        .err();
        *state = State::of(s);
        Ran {
            done: out[0] as usize,
            stopped,
        }
    }

    /// The patterns re, im, re, im, .. as a state in a store: pairs below 2^-40 are left out.
    pub fn import_dense(
        &mut self,
        width: u64,
        list: &[u64],
        store: Side,
    ) -> Result<State, Refusal> {
        let mut s = [0; STATE_WORDS];
        done(c::butrask_import_dense(
            width as usize,
            list,
            store.word(),
            &mut s,
            &mut self.left,
            &mut self.right,
        ))?;
        Ok(State::of(s))
    }
}

/// An answer: 0 is done. The slices above have the right lengths, so no other number than a
/// refusal's comes.
fn done(answer: u64) -> Result<(), Refusal> {
    match (answer, Refusal::from_number(answer)) {
        (0, _) => Ok(()),
        (_, Some(refusal)) => Err(refusal),
        (_, None) => panic!("the answer {answer}: {}", answer_text(answer)),
    }
}
