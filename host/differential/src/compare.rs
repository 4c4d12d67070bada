//! Two sides on one case.
use crate::known::stops_at_chunk_of_zero;
use crate::reasons::{reason, Room};
use crate::words::{bit, is_finite};
use crate::{Case, Counts};
use butrask_calls::{call_in_run, Answer, Call, Calls, Kind, Lent, Refusal, Reply, Side, State};
use butrask_calls::{Step, WIDTHS};
use butrask_model::{capacity, entries};
use butrask_reference::{key_pairs, machine, Contents, Entry, Machine, Stopped};
use std::fmt::{self, Display, Formatter};
use std::panic::{catch_unwind, AssertUnwindSafe};

/// The first thing in which two sides differ.
#[derive(Clone, Debug, PartialEq, Eq)]
pub struct Difference {
    /// Which of the case's calls, from 0. None where the starting state already is not what it
    /// should be.
    pub call: Option<usize>,
    pub what: String,
}

impl Display for Difference {
    fn fmt(&self, f: &mut Formatter<'_>) -> fmt::Result {
        match self.call {
            Some(call) => write!(f, "call {}: {}", call + 1, self.what),
            None => write!(f, "the starting state: {}", self.what),
        }
    }
}

/// How many calls were compared, and how.
#[derive(Clone, Debug, Default, PartialEq, Eq)]
pub struct Tally {
    /// Accepted and compared, or refused for a reason that was found.
    pub counts: Counts,
    /// Calls, or steps of runs, in which the reference stopped as it is known to.
    pub known: u64,
}

impl Display for Tally {
    fn fmt(&self, f: &mut Formatter<'_>) -> fmt::Result {
        let Tally { counts, known } = self;
        write!(f, "{counts}; reference stopped as known {known}")
    }
}

/// Compares two libraries on a case: after every call the answer, the state and every word of both
/// stores. A panic is a difference too.
pub fn same_words(a: &mut dyn Calls, b: &mut dyn Calls, case: &Case) -> Result<(), Difference> {
    let mut at_a = Session::new(case);
    let mut at_b = Session::new(case);
    for (call, asked) in case.calls.iter().enumerate() {
        let differ = |what: String| Difference {
            call: Some(call),
            what,
        };
        let from_a = at_a.call(a, asked).map_err(differ)?;
        let from_b = at_b.call(b, asked).map_err(differ)?;
        let (a, b) = (a.name(), b.name());
        if from_a != from_b {
            return Err(differ(format!(
                "{a} gives {from_a:?}, {b} gives {from_b:?}"
            )));
        }
        let (after_a, after_b) = (&at_a.lent, &at_b.lent);
        let lent = [
            ("left store", &after_a.left, &after_b.left),
            ("right store", &after_a.right, &after_b.right),
            ("third buffer", &after_a.third, &after_b.third),
        ];
        for (name, of_a, of_b) in lent {
            if let Some(i) = (0..of_a.len()).find(|&i| of_a[i] != of_b[i]) {
                return Err(differ(format!(
                    "word {i} of the {name} is {:x} after {a} and {:x} after {b}",
                    of_a[i], of_b[i]
                )));
            }
        }
    }
    Ok(())
}

/// A state and what is lent to one library.
struct Session {
    state: State,
    lent: Lent,
}

impl Session {
    fn new(case: &Case) -> Session {
        Session {
            state: case.state,
            lent: case.lent.clone(),
        }
    }

    /// The library's reply, or its panic, so that the case is not lost with it.
    fn call(&mut self, library: &mut dyn Calls, call: &Call) -> Result<Reply, String> {
        let ask = || library.call(call, self.state, &mut self.lent);
        let reply = catch_unwind(AssertUnwindSafe(ask)).map_err(|panic| {
            let text = panic.downcast_ref::<String>().map(String::as_str);
            let text = text.or(panic.downcast_ref::<&str>().copied());
            format!(
                "{} panics: {}",
                library.name(),
                text.unwrap_or("no message")
            )
        })?;
        self.state = reply.state;
        Ok(reply)
    }

    /// The records that the stores hold, where `front` is front.
    fn room(&self, call: &Call, width: u64, front: Side) -> Room {
        let records = |side, width| capacity(self.lent.store(side), width) as usize;
        let named_store = match call {
            Call::ImportDense { store, .. } => *store,
            _ => Side::Left,
        };
        let named_width = call.number_of(Kind::Width);
        let named_width = named_width.filter(|width| WIDTHS.contains(width));
        Room {
            width,
            front: records(front, width),
            back: records(front.other(), width),
            named: named_width.map_or(0, |width| records(named_store, width)),
        }
    }

    /// What the state holds, if its numbers allow to read it.
    fn contents(&self) -> Option<Contents> {
        let front = self.lent.store(self.state.front);
        let fits = WIDTHS.contains(&self.state.width)
            && self.state.entries()? <= capacity(front, self.state.width);
        fits.then(|| Contents {
            parts: entries(&self.state, front).map(|part| {
                part.into_iter()
                    .map(|entry| Entry {
                        key: entry.key,
                        amplitude: entry.amplitude,
                    })
                    .collect()
            }),
            tag: self.state.tag,
        })
    }
}

/// Compares a library with the reference on a case whose state is accepted. The reference must be
/// there.
pub fn as_reference(
    library: &mut dyn Calls,
    case: &Case,
    tally: &mut Tally,
) -> Result<(), Difference> {
    let mut session = Session::new(case);
    let fail = |call: Option<usize>, what: String| Difference { call, what };
    let checked = session.call(library, &Call::Check);
    let checked = checked.map_err(|what| fail(None, what))?.answer;
    if checked != Answer::Done {
        return Err(fail(None, format!("{checked:?}")));
    }
    let Some(start) = session.contents() else {
        return Err(fail(None, "it can't be read".to_string()));
    };
    let mut reference = Followed::new(session.state.width);
    reference.machine.load(&start);
    for (i, call) in case.calls.iter().enumerate() {
        let before = session.state;
        let reply = session.call(library, call);
        let answer = reply.map_err(|what| fail(Some(i), what))?.answer;
        reference
            .follow(call, answer, before.front, &session, tally)
            .map_err(|what| {
                fail(
                    Some(i),
                    format!("{} of {}: {what}", call.name(), library.name()),
                )
            })?;
    }
    Ok(())
}

/// A state of the reference that goes the same way as a library's.
struct Followed {
    machine: Box<dyn Machine>,
    width: u64,
}

impl Followed {
    fn new(width: u64) -> Followed {
        Followed {
            machine: machine(width).expect("the reference is there and has the width"),
            width,
        }
    }

    /// Goes on as the library did, where `front` was front before the call, and says in what they
    /// differ.
    fn follow(
        &mut self,
        call: &Call,
        answer: Answer,
        front: Side,
        after: &Session,
        tally: &mut Tally,
    ) -> Result<(), String> {
        let before = self.machine.contents();
        let room = after.room(call, self.width, front);
        let front_after = match (call, answer) {
            (_, Answer::Refused(refusal)) => {
                expect(reason(call, &before, &room), Some(refusal))?;
                tally.counts.add(call, Some(refusal));
                front
            }
            (_, Answer::Strange(number)) => {
                return Err(format!("it answers {number}, which is none"))
            }
            (Call::Run { steps }, Answer::Ran { done, stopped }) => {
                let front = self.follow_run(steps, (done, stopped), front, after, tally)?;
                tally.counts.add(call, stopped);
                front
            }
            _ => {
                expect(reason(call, &before, &room), None)?;
                let front_after = front_after(call, &before, front);
                let mut expected = self.perform(call, tally)?;
                // The reference has no stores. An export is the front records (SPECIFICATION 7.1).
                if let Answer::Exported { store, .. } = &mut expected {
                    *store = front;
                }
                if answer != expected {
                    return Err(format!("it answers {answer:?}, the reference {expected:?}"));
                }
                tally.counts.add(call, None);
                front_after
            }
        };
        if after.state.front != front_after {
            return Err(format!("after it {:?} is front", after.state.front));
        }
        if let Answer::Exported { store, words } = answer {
            let exported = after.lent.store(store).get(..words);
            if exported != Some(&self.machine.export()) {
                return Err("the exported records differ".to_string());
            }
        }
        let contents = self.machine.contents();
        let Some(got) = after.contents() else {
            return Err(format!(
                "it gives a state that can't be read: {:?}",
                after.state
            ));
        };
        if after.state.width != self.width || got != contents {
            return Err(format!(
                "after it the state has {got}; the reference's {contents}"
            ));
        }
        let new = contents.parts.iter().flatten();
        if !new.flat_map(|entry| entry.amplitude).all(is_finite) {
            return Err("it was accepted and has a part that is not finite".to_string());
        }
        Ok(())
    }

    /// Follows the steps of a run that were done, and looks for the reason of the one that was
    /// refused. Gives the store that must be front then.
    fn follow_run(
        &mut self,
        steps: &[Step],
        (done, stopped): (u64, Option<Refusal>),
        mut front: Side,
        session: &Session,
        tally: &mut Tally,
    ) -> Result<Side, String> {
        let done = usize::try_from(done).map_err(|e| e.to_string())?;
        let steps_done = steps
            .get(..done)
            .ok_or("it did more steps than there are")?;
        for step in steps_done {
            let call = call_in_run(step).ok_or("it did a malformed step")?;
            let room = session.room(&call, self.width, front);
            let before = self.machine.contents();
            expect(reason(&call, &before, &room), None)?;
            front = front_after(&call, &before, front);
            self.perform(&call, tally)?;
        }
        match (steps.get(done), stopped) {
            (None, None) => Ok(front),
            (Some(step), Some(refusal)) => {
                let expected = match call_in_run(step) {
                    Some(call) => {
                        let room = session.room(&call, self.width, front);
                        reason(&call, &self.machine.contents(), &room)
                    }
                    None => Some(Refusal::Step),
                };
                expect(expected, Some(refusal))?;
                Ok(front)
            }
            _ => Err(format!("{done} steps done, then {stopped:?}")),
        }
    }

    /// Performs an accepted call that is no run, and gives the answer that the specification wants.
    fn perform(&mut self, call: &Call, tally: &mut Tally) -> Result<Answer, String> {
        let before = self.machine.contents();
        let known = stops_at_chunk_of_zero(call, &before);
        match (self.ask(call), known) {
            (Ok(answer), false) => Ok(answer),
            (Ok(_), true) => Err("the reference did not stop where it is known to".to_string()),
            (Err(stopped), false) => Err(format!("the reference {stopped}")),
            (Err(_), true) => {
                tally.known += 1;
                // The port gives sums 0 and 0, and an empty state with its tag (SPECIFICATION 4.1,
                // 4.5).
                self.machine = Followed::new(self.width).machine;
                self.machine.load(&Contents {
                    tag: before.tag,
                    ..Contents::default()
                });
                Ok(match call {
                    Call::Premeasure { .. } => Answer::Sums([0, 0]),
                    _ => Answer::Done,
                })
            }
        }
    }

    /// What the reference itself gives.
    fn ask(&mut self, call: &Call) -> Result<Answer, Stopped> {
        let machine = &mut self.machine;
        Ok(match call {
            Call::Check => Answer::Done,
            Call::Fresh { width } => {
                *self = Followed::new(*width);
                Answer::Done
            }
            Call::Lookup { key } => machine.lookup(key)?.map_or(Answer::Absent, Answer::Found),
            Call::Export => Answer::Exported {
                store: Side::Left,
                words: machine.export().len(),
            },
            Call::PerformU4 { qubit, gate } => {
                machine.perform_u4(*qubit, gate)?;
                Answer::Done
            }
            Call::Premeasure { qubit } => Answer::Sums(machine.premeasure(*qubit)?),
            Call::Measure {
                qubit,
                outcome,
                scale,
            } => {
                machine.measure(*qubit, *outcome, *scale)?;
                Answer::Done
            }
            Call::ImportDense { width, list, .. } => {
                let (pairs, _) = list.as_chunks();
                *self = Followed::new(*width);
                self.machine.import_dense(pairs)?;
                Answer::Done
            }
            Call::CollapseDelta { qubit, gate, index } => {
                Answer::Change(machine.collapse_delta(*qubit, gate, *index)?)
            }
            // The sum of `collapse_delta` over all entries, halved toward zero (SPECIFICATION 5.3).
            Call::Forecast { qubit, gate } => {
                let parts = machine.contents().parts;
                let mut sum = 0;
                for i in 0..(parts[0].len() + parts[1].len()) as u64 {
                    sum += machine.collapse_delta(*qubit, gate, i)?;
                }
                Answer::Change(sum / 2)
            }
            Call::Run { .. } => unreachable!("a run is followed step by step"),
            Call::Compare {
                width,
                left_out,
                qubit,
                a,
                b,
            } => {
                let left_out = left_out.then_some(*qubit);
                let of_first = |words: u64| order_of_first(words, *width, left_out, a, b);
                Answer::Compared {
                    order: of_first(*width),
                    pairs: (1..*width)
                        .find(|&words| of_first(words) != 0)
                        .unwrap_or(*width),
                }
            }
        })
    }
}

/// The reference's order of two keys cut to their first words, the others being 0, without the bit
/// of a qubit that is left out. The least number of words at which it is not equal is the place of
/// the pair that decides.
fn order_of_first(words: u64, width: u64, left_out: Option<u64>, a: &[u64], b: &[u64]) -> i64 {
    let cut = |key: &[u64]| {
        let mut key = key.to_vec();
        key[words as usize..].fill(0);
        key
    };
    let pair = key_pairs(width, &[cut(a), cut(b)].concat());
    pair.expect("the reference is there and has the width")
        .orders(left_out)
}

/// Compares the reason that was found for a refusal with what a library says.
fn expect(expected: Option<Refusal>, got: Option<Refusal>) -> Result<(), String> {
    let say = |refusal: Option<Refusal>| {
        refusal.map_or("accepted".to_string(), |r| format!("refused with {r:?}"))
    };
    if expected == got {
        Ok(())
    } else {
        Err(format!("it is {}, expected {}", say(got), say(expected)))
    }
}

/// Which store is front after an accepted call that is no run, where `front` was: that follows from
/// where the specification sends results.
fn front_after(call: &Call, before: &Contents, front: Side) -> Side {
    let exchanged = match *call {
        Call::Fresh { .. } => return Side::Left,
        Call::ImportDense { store, .. } => return store,
        // By another qubit they go to the back store and from there to the front store again.
        Call::PerformU4 { qubit, .. } => before.tag == Some(qubit),
        Call::Measure { qubit, outcome, .. } => {
            let mut all = before.parts.iter().flatten();
            before.tag != Some(qubit) && all.any(|entry| bit(&entry.key, qubit) != outcome)
        }
        _ => false,
    };
    if exchanged {
        front.other()
    } else {
        front
    }
}
