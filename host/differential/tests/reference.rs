//! The model beside the reference.
use butrask_calls::{Refusal, WIDTHS};
use butrask_differential::{compare, drive, exhaustive, reference_is_there, Case, Tally};
use butrask_model::Model;

/// Compares on all cases; panics with the smallest failing one.
fn compared(cases: impl IntoIterator<Item = Case>) -> Tally {
    let mut tally = Tally::default();
    let compared = drive::drive(cases, |case| {
        compare::as_reference(&mut Model, case, &mut tally)
    });
    if let Err(failure) = compared {
        panic!("{failure}");
    }
    tally
}

#[test]
fn random_cases() {
    if !reference_is_there() {
        return;
    }
    let seed = 2026;
    let tally = compared(drive::sound_cases(seed, 300_000));
    println!("seed {seed}: {tally}");
    for (name, count) in tally.counts.by_call() {
        assert!(count > 2_000, "{name}: {count}");
    }
    // No state of a sound case is refused.
    let never = [Refusal::Count, Refusal::Order, Refusal::WrongSide];
    for (refusal, count) in tally.counts.by_refusal() {
        if !never.contains(&refusal) {
            assert!(count > 300, "{refusal}: {count} times");
        }
    }
    assert!(tally.known > 1_000);
}

#[test]
fn every_width() {
    if !reference_is_there() {
        return;
    }
    for width in WIDTHS {
        let tally = compared(drive::sound_cases_of_width(width, 12_000, width));
        println!("width {width}: {tally}");
        assert!(tally.counts.calls() >= 12_000);
    }
}

#[test]
fn all_small_states() {
    if !reference_is_there() {
        return;
    }
    let tally = compared(exhaustive::cases().chain(exhaustive::mirrored_cases()));
    println!("{tally}");
    assert!(tally.counts.calls() > 500_000);
}

#[test]
fn all_small_stores() {
    if !reference_is_there() {
        return;
    }
    let tally = compared(exhaustive::tight_cases());
    println!("{tally}");
    assert!(tally.counts.calls() > 500_000);
    assert!(tally.counts.with(Refusal::Full) > 100_000);
}

#[test]
fn all_short_dense_lists() {
    if !reference_is_there() {
        return;
    }
    let tally = compared(exhaustive::dense_cases());
    println!("{tally}");
    assert!(tally.counts.accepted() > 1_000);
}

#[test]
fn all_short_keys() {
    if !reference_is_there() {
        return;
    }
    let tally = compared(exhaustive::comparison_cases());
    println!("{tally}");
    assert!(tally.counts.accepted() > 10_000);
    assert!(tally.counts.with(Refusal::Qubit) > 2_000);
}

/// The reference has a type for every width that the specification lists, and makes no other.
#[test]
fn the_reference_has_these_widths() {
    if !reference_is_there() {
        return;
    }
    assert_eq!(WIDTHS, butrask_reference::WIDTHS);
    let mut made: Vec<u64> = (0..62 * 64)
        .filter_map(butrask_reference::width_for)
        .collect();
    assert_eq!(made.len(), 62 * 64);
    made.dedup();
    assert_eq!(made, WIDTHS);
}
