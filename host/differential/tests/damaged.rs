//! The model on bad states and bad calls: the first number of the table that applies, and every
//! word stays that has to.
mod stray;

use butrask_calls::{Answer, Calls, Refusal};
use butrask_differential::boundary::as_read;
use butrask_differential::damage::{broken, damaged, refused_as_expected};
use butrask_differential::{drive, stay, Case, Counts, Random};
use butrask_model::Model;
use std::collections::BTreeMap;

#[test]
fn damaged_cases_get_their_number() {
    let mut r = Random::new(1);
    let mut seen = BTreeMap::new();
    for _ in 0..200_000 {
        let damaged = damaged(&mut r);
        if let Err(difference) = refused_as_expected(&mut Model, &damaged) {
            panic!("{difference}\n{}", damaged.case);
        }
        let name = damaged.case.calls[0].name();
        *seen.entry((damaged.expected.number(), name)).or_insert(0) += 1;
    }
    println!("{seen:?}");
    for refusal in Refusal::ALL {
        let count: u64 = seen
            .iter()
            .filter(|((number, _), _)| *number == refusal.number())
            .map(|(_, count)| count)
            .sum();
        assert!(count > 500, "{refusal:?}: {count}");
    }
}

/// The model on the first call of each case: no word changes that has to stay. A run that did a
/// step counts as accepted.
fn untouched(cases: impl Iterator<Item = Case>) -> Counts {
    let mut counts = Counts::default();
    for case in cases {
        let mut lent = case.lent.clone();
        let reply = Model.call(&case.calls[0], case.state, &mut lent);
        let refusal = match reply.answer {
            Answer::Ran { done: 1.., .. } => None,
            answer => answer.refusal(),
        };
        counts.add(&case.calls[0], refusal);
        if let Err(what) = stay::untouched(&case, reply, &lent) {
            panic!("{what}\n{case}");
        }
    }
    counts
}

#[test]
fn calls_leave_all_other_words() {
    let counts = untouched(drive::sound_cases(4, 200_000));
    println!("{counts}");
    assert!(counts.by_call().all(|(_, count)| count > 300), "{counts}");
}

#[test]
fn calls_on_broken_cases_leave_all_other_words() {
    let mut r = Random::new(2);
    let cases = (0..40_000).map(|_| broken(&mut r));
    let counts = untouched(cases);
    println!("{counts}");
    // A malformed step is seldom a run's first.
    let mut often = counts
        .by_refusal()
        .filter(|(refusal, _)| *refusal != Refusal::Step);
    assert!(often.all(|(_, count)| count > 50), "{counts}");
}

#[test]
fn stray_bytes_of_the_model() {
    stray::stray_bytes(&mut as_read);
    stray::stray_bytes_in_their_place(&mut as_read);
    stray::stray_steps(&mut as_read);
    stray::lengths_of_comparisons(&mut as_read);
}
