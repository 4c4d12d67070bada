//! The list of answers in answers.txt, whose blocks `differential --record` wrote with the reference
//! at hand. The model gives the same without it.
use butrask_calls::CALLS;
use butrask_differential::{compare, recorded, reference_is_there, Tally};
use butrask_model::Model;

const LIST: &str = include_str!("answers.txt");

#[test]
fn the_model_gives_the_recorded_answers() {
    let mut calls = [0; CALLS];
    for block in recorded::blocks(LIST) {
        let case = recorded::case(block).unwrap_or_else(|e| panic!("{e}\n{block}"));
        for call in &case.calls {
            calls[call.index()] += 1;
        }
        assert_eq!(
            recorded::block(&mut Model, &case).trim_end(),
            block.trim_end()
        );
    }
    println!("{calls:?}");
    assert!(calls.iter().all(|&count| count > 0), "{calls:?}");
    assert!(calls.iter().sum::<u64>() > 300, "{calls:?}");
}

/// What is recorded is still what the reference gives.
#[test]
fn the_reference_agrees_with_the_recorded_cases() {
    if !reference_is_there() {
        return;
    }
    for block in recorded::blocks(LIST) {
        let case = recorded::case(block).unwrap();
        let compared = compare::as_reference(&mut Model, &case, &mut Tally::default());
        assert_eq!(compared, Ok(()), "{block}");
    }
}
