//! Faults put into the model, one at a time, to show that the comparisons find them: the wrong
//! readings of SPECIFICATION 12.2, and some in what only the words show.
use butrask_calls::{Amplitude, Answer, Call, Calls, Gate, Lent, Refusal, Reply, State, WIDTHS};
use butrask_differential::{compare, drive, exhaustive, recorded, reference_is_there, stay};
use butrask_differential::{Case, Difference, Tally};
use butrask_model::{capacity, entries, Entry, Model};

const EPS: f64 = f64::from_bits(0x3d70_0000_0000_0000);

/// What is wrong.
#[derive(Clone, Copy, Debug, PartialEq, Eq)]
enum Fault {
    /// s1 and f1 are read as a row of the matrix: they change places.
    ReadsRow,
    /// A sum is tested against the larger operand.
    LargerOperand,
    /// Zeros of unpaired entries are dropped.
    DropsUnpairedZeros,
    /// A dense pair must be above EPS.
    DenseAbove,
    /// A measurement in place divides by a scale near 1 too.
    DividesNearOne,
    /// The estimate takes the clear entry's products as first operands.
    EstimateByClear,
    /// The forecast is halved downwards.
    HalvedDown,
    /// The sums are added over both parts at once.
    OneSum,
    /// A gate that needs a repartition leaves no tag.
    LosesTag,
    /// The sign of a zero is lost.
    LosesZeroSign,
    /// "Full" while the last record just fits.
    FullTooEarly,
    /// Every call is refused.
    RefusesAll,
    /// A run stops after its first step and says that all are done.
    FirstStepOnly,
    /// A run takes its first eight steps for every further eight.
    FirstPieceAgain,
    /// A run that is stopped counts the steps of its last piece of eight alone.
    CountsLastPiece,
    /// A gate writes the word after its last record.
    WritesPastTheEnd,
    /// A gate refused after its repartition puts the back store's words back.
    UndoesRepartition,
    /// After a measurement by the tag the slots after part 1 are cleared.
    ClearsSlots,
    /// A gate on an empty state leaves the front mark.
    KeepsFrontOfEmpty,
    /// A gate gives more records than its store holds.
    CountsTooMany,
    /// 5 is tested before 4.
    SideBeforeOrder,
    /// A comparison counts one pair of words too few.
    CountsOneTooFew,
    /// A comparison counts every pair, those after the deciding one too.
    CountsEveryPair,
    /// A comparison that no pair decides counts one more than there are.
    CountsPastTheEnd,
    /// A comparison does not leave out the qubit.
    ComparesLeftOut,
    /// A pair that differs in the bit left out alone ends the count.
    CountEndsAtLeftOut,
    /// The last word is weighed first.
    WeighsLastFirst,
    /// Words are compared as signed numbers.
    ComparesSigned,
    /// A qubit that is not left out is tested all the same.
    TestsUnusedQubit,
}

/// Faults that the comparison with the reference finds.
const SEEN_BY_REFERENCE: [Fault; 17] = [
    Fault::ReadsRow,
    Fault::LargerOperand,
    Fault::DropsUnpairedZeros,
    Fault::DenseAbove,
    Fault::DividesNearOne,
    Fault::EstimateByClear,
    Fault::HalvedDown,
    Fault::OneSum,
    Fault::LosesTag,
    Fault::LosesZeroSign,
    Fault::FullTooEarly,
    Fault::RefusesAll,
    Fault::FirstStepOnly,
    Fault::FirstPieceAgain,
    Fault::CountsLastPiece,
    Fault::KeepsFrontOfEmpty,
    Fault::CountsTooMany,
];

/// Faults in words, or on bad states, that only the comparison of two libraries finds.
const SEEN_IN_WORDS: [Fault; 4] = [
    Fault::WritesPastTheEnd,
    Fault::UndoesRepartition,
    Fault::ClearsSlots,
    Fault::SideBeforeOrder,
];

/// Faults in comparisons of keys, which the comparison with the reference finds too.
const IN_COMPARISONS: [Fault; 8] = [
    Fault::CountsOneTooFew,
    Fault::CountsEveryPair,
    Fault::CountsPastTheEnd,
    Fault::ComparesLeftOut,
    Fault::CountEndsAtLeftOut,
    Fault::WeighsLastFirst,
    Fault::ComparesSigned,
    Fault::TestsUnusedQubit,
];

/// The model with a fault.
struct Faulty(Fault);

impl Calls for Faulty {
    fn name(&self) -> &str {
        "faulty"
    }

    fn call(&mut self, call: &Call, state: State, lent: &mut Lent) -> Reply {
        let old = read(&state, lent);
        let before = lent.clone();
        let asked = altered_call(self.0, call, &old);
        let reply = Model.call(&asked, state, lent);
        let mut made = Made {
            call,
            state,
            old,
            before,
            reply,
            lent,
        };
        made.alter(self.0);
        made.reply
    }
}

/// A call that the model has performed, and what there was before it.
struct Made<'a> {
    call: &'a Call,
    state: State,
    old: Vec<Entry>,
    before: Lent,
    reply: Reply,
    lent: &'a mut Lent,
}

impl Made<'_> {
    /// Makes of it what a library with this fault makes.
    fn alter(&mut self, fault: Fault) {
        let accepted = !matches!(self.reply.answer, Answer::Refused(_));
        let same_front = self.reply.state.front == self.state.front;
        match (fault, self.call) {
            (Fault::RefusesAll, Call::Check) => {}
            (Fault::RefusesAll, _) => self.refuse(),
            (Fault::UndoesRepartition, _) if !accepted => self.undo(),
            (Fault::SideBeforeOrder, _) if self.reply.answer == refused(Refusal::Order) => {
                self.side_before_order();
            }
            (_, Call::PerformU4 { qubit, gate }) if accepted => match fault {
                Fault::LosesTag if same_front => self.reply.state.tag = None,
                Fault::LargerOperand => {
                    let old = self.old.clone();
                    self.keep(|new| !small_beside_larger(*qubit, gate, &old, new));
                }
                Fault::DropsUnpairedZeros => {
                    self.keep(|new| new.amplitude.map(f64::from_bits) != [0.0, 0.0]);
                }
                Fault::LosesZeroSign => self.rewrite(|x| if x == 0.0 { 0.0 } else { x }),
                Fault::FullTooEarly if self.spare_words() < self.record_words() => self.refuse(),
                Fault::WritesPastTheEnd if self.spare_words() > 0 => {
                    let end = self.used(&self.reply.state);
                    self.front()[end] = 0;
                }
                Fault::KeepsFrontOfEmpty if self.old.is_empty() => {
                    self.reply.state.front = self.state.front;
                }
                Fault::CountsTooMany => {
                    let width = self.state.width;
                    let room = capacity(self.front(), width);
                    self.reply.state.n0 += room;
                }
                _ => {}
            },
            (_, Call::Measure { qubit, scale, .. }) if accepted => {
                let scale = f64::from_bits(*scale);
                match fault {
                    Fault::DividesNearOne if (scale - 1.0).abs() < EPS && same_front => {
                        self.rewrite(|x| x / scale);
                    }
                    Fault::ClearsSlots if self.state.tag == Some(*qubit) => {
                        let end = self.used(&self.reply.state);
                        let used = self.used(&self.state);
                        self.front()[end..used].fill(0);
                    }
                    _ => {}
                }
            }
            (Fault::OneSum, Call::Premeasure { qubit }) if accepted => self.one_sum(*qubit),
            (Fault::HalvedDown, Call::Forecast { qubit, gate }) if accepted => {
                self.halved_down(*qubit, gate);
            }
            (Fault::FirstStepOnly, Call::Run { steps }) => {
                if let Answer::Ran { done: 1, .. } = self.reply.answer {
                    self.reply.answer = Answer::Ran {
                        done: steps.len() as u64,
                        stopped: None,
                    };
                }
            }
            (Fault::CountsLastPiece, Call::Run { .. }) => {
                if let Answer::Ran {
                    done,
                    stopped: Some(_),
                } = &mut self.reply.answer
                {
                    *done %= 8;
                }
            }
            (_, Call::Compare { .. }) if accepted => self.compared(fault),
            _ => {}
        }
    }

    /// Another answer of a comparison.
    fn compared(&mut self, fault: Fault) {
        let Answer::Compared { order, pairs } = &mut self.reply.answer else {
            unreachable!("a comparison that is done")
        };
        let Call::Compare {
            width,
            left_out,
            qubit,
            a,
            b,
        } = self.call
        else {
            unreachable!("a comparison")
        };
        match fault {
            Fault::CountsOneTooFew => *pairs -= 1,
            Fault::CountsEveryPair => *pairs = *width,
            Fault::CountsPastTheEnd if *order == 0 => *pairs += 1,
            Fault::CountEndsAtLeftOut => {
                let differs = a.iter().zip(b).position(|(a, b)| a != b);
                *pairs = differs.map_or(*width, |place| place as u64 + 1);
            }
            Fault::TestsUnusedQubit if !left_out && *qubit >= 64 * *width => {
                self.reply.answer = refused(Refusal::Qubit);
            }
            _ => {}
        }
    }

    /// Puts every word back.
    fn undo(&mut self) {
        self.lent.clone_from(&self.before);
    }

    fn refuse(&mut self) {
        self.undo();
        self.reply = Reply {
            answer: refused(Refusal::Full),
            state: self.state,
        };
    }

    fn side_before_order(&mut self) {
        let State { width, n0, tag, .. } = self.state;
        let wrong = |(i, entry): (usize, &Entry)| {
            let set = i as u64 >= n0;
            tag.is_some_and(|tag| tag >= 64 * width || entry.bit(tag) != set)
        };
        if self.old.iter().enumerate().any(wrong) {
            self.reply.answer = refused(Refusal::WrongSide);
        }
    }

    fn one_sum(&mut self, qubit: u64) {
        let mut sums = [0.0; 2];
        for entry in &self.old {
            let [re, im] = entry.amplitude.map(f64::from_bits);
            sums[usize::from(entry.bit(qubit))] += re * re + im * im;
        }
        self.reply.answer = Answer::Sums(sums.map(f64::to_bits));
    }

    fn halved_down(&mut self, qubit: u64, gate: &Gate) {
        let mut sum = 0;
        for index in 0..self.old.len() as u64 {
            let gate = *gate;
            let call = Call::CollapseDelta { qubit, gate, index };
            let reply = Model.call(&call, self.state, self.lent);
            if let Answer::Change(change) = reply.answer {
                sum += change;
            }
        }
        self.reply.answer = Answer::Change(sum.div_euclid(2));
    }

    fn record_words(&self) -> usize {
        self.reply.state.width as usize + 2
    }

    /// The words of a state's records.
    fn used(&self, state: &State) -> usize {
        (state.n0 + state.n1) as usize * self.record_words()
    }

    /// The words of the front store after the last record.
    fn spare_words(&mut self) -> usize {
        let used = self.used(&self.reply.state);
        self.front().len() - used
    }

    /// The store that is front now.
    fn front(&mut self) -> &mut [u64] {
        self.lent.store_mut(self.reply.state.front)
    }

    /// Keeps the entries that are wanted.
    fn keep(&mut self, wanted: impl Fn(&Entry) -> bool) {
        let state = self.reply.state;
        let parts = entries(&state, self.front()).map(|mut part| {
            part.retain(&wanted);
            part
        });
        let records: Vec<u64> = parts
            .iter()
            .flatten()
            .flat_map(|entry| [&entry.key[..], &entry.amplitude].concat())
            .collect();
        self.front()[..records.len()].copy_from_slice(&records);
        let sizes = parts.map(|part| part.len() as u64);
        self.reply.state.set_sizes(sizes);
    }

    /// Changes every part of every amplitude.
    fn rewrite(&mut self, new: impl Fn(f64) -> f64) {
        let words = self.record_words();
        let used = self.used(&self.reply.state);
        for record in self.front()[..used].chunks_exact_mut(words) {
            for pattern in &mut record[words - 2..] {
                *pattern = new(f64::from_bits(*pattern)).to_bits();
            }
        }
    }
}

fn refused(refusal: Refusal) -> Answer {
    Answer::Refused(refusal)
}

/// What a library with this fault takes the call for.
fn altered_call(fault: Fault, call: &Call, old: &[Entry]) -> Call {
    let mut call = call.clone();
    match (fault, &mut call) {
        (
            Fault::ReadsRow,
            Call::PerformU4 { gate, .. }
            | Call::CollapseDelta { gate, .. }
            | Call::Forecast { gate, .. },
        ) => {
            std::mem::swap(&mut gate.s1, &mut gate.f1);
        }
        (Fault::DenseAbove, Call::ImportDense { list, .. }) => {
            for pair in list.chunks_exact_mut(2) {
                let [re, im] = [pair[0], pair[1]].map(|x| f64::from_bits(x).abs());
                if re.max(im) == EPS {
                    pair.fill(0);
                }
            }
        }
        (Fault::EstimateByClear, Call::CollapseDelta { qubit, index, .. }) if !old.is_empty() => {
            let own = &old[(*index % old.len() as u64) as usize];
            let word = (*qubit / 64) as usize;
            if word < own.key.len() && own.bit(*qubit) {
                let mut key = own.key.clone();
                key[word] ^= 1 << (*qubit % 64);
                if let Some(partner) = old.iter().position(|entry| entry.key == key) {
                    *index = partner as u64;
                }
            }
        }
        (
            Fault::ComparesLeftOut,
            Call::Compare {
                left_out,
                qubit,
                width,
                ..
            },
        ) if WIDTHS.contains(width) && *qubit < 64 * *width => {
            *left_out = false;
        }
        (Fault::WeighsLastFirst, Call::Compare { left_out, a, b, .. }) if !*left_out => {
            a.reverse();
            b.reverse();
        }
        // As unsigned numbers with the sign turned round they have this order.
        (Fault::ComparesSigned, Call::Compare { left_out, a, b, .. }) if !*left_out => {
            for word in a.iter_mut().chain(b) {
                *word ^= 1 << 63;
            }
        }
        (Fault::FirstStepOnly, Call::Run { steps }) => steps.truncate(1),
        (Fault::FirstPieceAgain, Call::Run { steps }) => {
            for i in 8..steps.len() {
                steps[i] = steps[i % 8];
            }
        }
        _ => {}
    }
    call
}

/// Whether a gate's sum at this entry's key is at most EPS of its second operand.
fn small_beside_larger(qubit: u64, gate: &Gate, old: &[Entry], new: &Entry) -> bool {
    let amplitude = |set: bool| {
        let same_pair = |entry: &&Entry| {
            entry.bit(qubit) == set
                && without_bit(&entry.key, qubit) == without_bit(&new.key, qubit)
        };
        old.iter().find(same_pair).map(|entry| entry.amplitude)
    };
    let (Some(_), Some(second)) = (amplitude(false), amplitude(true)) else {
        return false;
    };
    // The set entry stays, or flips.
    let Amplitude { re: a, im: b } = if new.bit(qubit) { gate.s1 } else { gate.f1 };
    let [c, d] = second.map(f64::from_bits);
    let second = (a * c - b * d).abs().max((a * d + b * c).abs());
    let [re, im] = new.amplitude.map(f64::from_bits);
    re.abs().max(im.abs()) <= EPS * second
}

fn without_bit(key: &[u64], qubit: u64) -> Vec<u64> {
    let mut key = key.to_vec();
    key[(qubit / 64) as usize] &= !(1 << (qubit % 64));
    key
}

/// All entries, part 0 first; none where the numbers don't fit.
fn read(state: &State, lent: &Lent) -> Vec<Entry> {
    let front = lent.store(state.front);
    let holds = |n| n <= capacity(front, state.width);
    let fits = WIDTHS.contains(&state.width) && state.entries().is_some_and(holds);
    if fits {
        entries(state, front).concat()
    } else {
        vec![]
    }
}

/// The first case that shows a difference, and how many calls were made before it.
fn found(
    cases: impl Iterator<Item = Case>,
    compare: impl Fn(&Case) -> Result<(), Difference>,
) -> Option<(Case, usize)> {
    let mut calls = 0;
    for case in cases {
        match compare(&case) {
            Err(difference) if difference.call.is_some() => return Some((case, calls)),
            Err(difference) => panic!("{difference}\n{case}"),
            Ok(()) => {}
        }
        calls += case.calls.len();
    }
    None
}

fn as_reference(fault: Fault, case: &Case) -> Result<(), Difference> {
    compare::as_reference(&mut Faulty(fault), case, &mut Tally::default())
}

#[test]
fn the_reference_tells_faults_apart() {
    if !reference_is_there() {
        return;
    }
    for fault in SEEN_BY_REFERENCE.into_iter().chain(IN_COMPARISONS) {
        let found = found(drive::sound_cases(7, 100_000), |case| {
            as_reference(fault, case)
        });
        let (_, calls) = found.unwrap_or_else(|| panic!("{fault:?} is not told apart"));
        println!("{fault:?}: after {calls} calls");
    }
}

/// Small states show what is wrong with a verdict, a gate or a measurement too.
#[test]
fn small_states_tell_faults_apart() {
    if !reference_is_there() {
        return;
    }
    for fault in [
        Fault::ReadsRow,
        Fault::LargerOperand,
        Fault::DropsUnpairedZeros,
        Fault::DividesNearOne,
        Fault::EstimateByClear,
        Fault::HalvedDown,
        Fault::LosesTag,
        Fault::LosesZeroSign,
    ] {
        let found = found(exhaustive::cases(), |case| as_reference(fault, case));
        let (_, calls) = found.unwrap_or_else(|| panic!("{fault:?} is not told apart"));
        println!("{fault:?}: after {calls} calls");
    }
}

#[test]
fn two_libraries_are_told_apart() {
    let every = SEEN_BY_REFERENCE.into_iter().chain(IN_COMPARISONS);
    for fault in every.chain(SEEN_IN_WORDS) {
        let found = found(drive::all_cases(8, 100_000), |case| {
            compare::same_words(&mut Faulty(fault), &mut Model, case)
        });
        let (_, calls) = found.unwrap_or_else(|| panic!("{fault:?} is not told apart"));
        println!("{fault:?}: after {calls} calls");
    }
}

/// Words that had to stay are missed without a second library.
#[test]
fn changed_words_are_seen() {
    for fault in [
        Fault::WritesPastTheEnd,
        Fault::UndoesRepartition,
        Fault::ClearsSlots,
        Fault::CountsTooMany,
    ] {
        let found = found(drive::sound_cases(11, 100_000), |case| {
            let mut lent = case.lent.clone();
            let reply = Faulty(fault).call(&case.calls[0], case.state, &mut lent);
            stay::untouched(case, reply, &lent).map_err(|what| Difference {
                call: Some(0),
                what,
            })
        });
        let (_, calls) = found.unwrap_or_else(|| panic!("{fault:?} is not seen"));
        println!("{fault:?}: after {calls} calls");
    }
}

/// Small keys show what is wrong with a comparison too.
#[test]
fn small_keys_tell_faults_apart() {
    if !reference_is_there() {
        return;
    }
    for fault in IN_COMPARISONS {
        let found = found(exhaustive::comparison_cases(), |case| {
            as_reference(fault, case)
        });
        let (_, calls) = found.unwrap_or_else(|| panic!("{fault:?} is not told apart"));
        println!("{fault:?}: after {calls} calls");
    }
}

/// So do the recorded answers, which need no reference.
#[test]
fn recorded_comparisons_tell_faults_apart() {
    let list = include_str!("answers.txt");
    for fault in IN_COMPARISONS {
        let differs = |block: &str| {
            let case = recorded::case(block).unwrap();
            recorded::block(&mut Faulty(fault), &case).trim_end() != block.trim_end()
        };
        assert!(recorded::blocks(list).any(differs), "{fault:?}");
    }
}

/// A failing case becomes as small as the fault allows.
#[test]
fn failing_cases_are_made_small() {
    if !reference_is_there() {
        return;
    }
    // How many calls and entries there must be.
    let expectations = [
        // A gate, and a pair whose sum is small beside the second operand alone.
        (Fault::LargerOperand, 3),
        (Fault::DropsUnpairedZeros, 2),
        (Fault::DividesNearOne, 2),
        (Fault::LosesTag, 1),
        (Fault::ReadsRow, 2),
    ];
    for (fault, size) in expectations {
        let failure = drive::drive(drive::sound_cases(10, 100_000), |case| {
            as_reference(fault, case)
        })
        .unwrap_err();
        println!("{fault:?}: {failure}");
        let [n0, n1] = failure.case.state.sizes();
        assert_eq!(failure.case.calls.len() as u64 + n0 + n1, size, "{fault:?}");
        assert_eq!(
            as_reference(fault, &failure.case),
            Err(failure.difference.clone())
        );
        let replayed: Case = failure.case.to_string().parse().unwrap();
        assert_eq!(replayed, failure.case);
    }
}
