//! A fixed list of answers of the reference, as text, that a library can be compared with where the
//! reference is not at hand. It is only added to, so that old answers are seen to stay.
//!
//! A block of the list is a case, with two lines after each call: its answer, and the state and its
//! records after it.
//!
//! ```text
//! state width 1 front left sizes 1 0 tag 0
//! left 0 3ff0000000000000 0 0 0 0
//! right 0 0 0 0 0 0
//! premeasure 0
//! > sums 3ff0000000000000 0
//! > width 1 front left sizes 1 0 tag 0 records 0 3ff0000000000000 0
//! ```
use crate::case::{CallText, StateText, WordsText};
use crate::stay::used_words;
use crate::{compare, drive, listed, Case, Tally};
use butrask_calls::{Answer, Calls, Use, WIDTHS};
use butrask_model::Model;

/// What the lines begin with that are no part of the case.
const GIVEN: &str = "> ";

/// How many records a store has in the list beyond those in use, at most.
const SPARE: usize = 4;

/// The list's blocks. There is an empty line between two.
pub fn blocks(list: &str) -> impl Iterator<Item = &str> {
    list.split_inclusive("\n\n")
        .map(|block| block.trim_end_matches("\n\n"))
}

/// The case of a block.
pub fn case(block: &str) -> Result<Case, String> {
    let lines = block.lines().filter(|line| !line.starts_with(GIVEN));
    lines.collect::<Vec<_>>().join("\n").parse()
}

/// The block that a library gives for a case.
pub fn block(library: &mut dyn Calls, case: &Case) -> String {
    let start = Case {
        calls: vec![],
        ..case.clone()
    };
    let mut text = start.to_string();
    let (mut state, mut lent) = (case.state, case.lent.clone());
    for call in &case.calls {
        let reply = library.call(call, state, &mut lent);
        state = reply.state;
        let records = used_words(&state).and_then(|used| lent.store(state.front).get(..used));
        text += &format!(
            "{}\n{GIVEN}{}\n{GIVEN}{} records{}\n",
            CallText(call),
            answer_text(reply.answer),
            StateText(&state),
            WordsText(records.unwrap_or_default()),
        );
    }
    text
}

fn answer_text(answer: Answer) -> String {
    match answer {
        Answer::Refused(refusal) => format!("refused {}", refusal.number()),
        Answer::Done => "done".to_string(),
        Answer::Found(parts) => format!("found{}", WordsText(&parts)),
        Answer::Absent => "absent".to_string(),
        Answer::Exported { store, words } => format!("exported {store} {words}"),
        Answer::Sums(sums) => format!("sums{}", WordsText(&sums)),
        Answer::Change(change) => format!("change {change}"),
        Answer::Compared { order, pairs } => format!("order {order} pairs {pairs}"),
        Answer::Ran {
            done,
            stopped: None,
        } => format!("ran {done}"),
        Answer::Ran {
            done,
            stopped: Some(refusal),
        } => format!("ran {done} refused {}", refusal.number()),
        Answer::Strange(number) => format!("answer {number}, which is none"),
    }
}

/// A list of random cases with small stores: `cases` of each of the widths 1 and 2, and one of
/// every other; and of comparisons of keys. Each is compared with the reference before it is
/// written, so what stands after an accepted call is what the reference gives.
pub fn list(seed: u64, cases: usize) -> Result<String, String> {
    let on_states = WIDTHS.into_iter().flat_map(|width| {
        let wanted = if width <= 2 { cases } else { 1 };
        let few_entries = |case: &Case| case.state.entries().is_some_and(|n| n <= 4);
        drive::sound_cases_of_width(seed, u64::MAX, width)
            .filter(few_entries)
            .map(with_small_stores)
            .take(wanted)
    });
    let mut list = vec![];
    for case in on_states.chain(comparisons(seed)) {
        compare::as_reference(&mut Model, &case, &mut Tally::default())
            .map_err(|difference| format!("{difference}\n{case}"))?;
        list.push(block(&mut Model, &case));
    }
    Ok(list.join("\n"))
}

/// The worked example (SPECIFICATION 1.8), also with the qubit and the other way round, keys that
/// are equal, in all bits or without the qubit, and keys that differ in the last word alone; and
/// random comparisons of every width.
fn comparisons(seed: u64) -> Vec<Case> {
    use listed::{compare, only_comparisons};
    let worked = only_comparisons(vec![
        compare(2, Some(1), &[3, 2], &[1, 9]),
        compare(2, None, &[3, 2], &[1, 9]),
        compare(2, Some(1), &[1, 9], &[3, 2]),
        compare(2, None, &[3, 2], &[3, 2]),
        compare(2, Some(1), &[3, 2], &[1, 2]),
        compare(2, None, &[3, 2], &[3, 9]),
        compare(2, None, &[3, 1 << 63], &[3, 9]),
    ]);
    let random = WIDTHS.into_iter().map(|width| {
        let calls = drive::sound_cases_of_width(seed, u64::MAX, width)
            .flat_map(|case| case.calls)
            .filter(|call| call.row().state == Use::Ignores);
        only_comparisons(calls.take(6).collect())
    });
    [worked].into_iter().chain(random).collect()
}

/// The case with a few spare records, whose words are short.
fn with_small_stores(mut case: Case) -> Case {
    let spare = SPARE * (case.state.width as usize + 2) + 1;
    let used = used_words(&case.state).expect("a sound state");
    case.front_mut().truncate(used + spare);
    case.front_mut()[used..].fill(0xe);
    case.back_mut().truncate(used + spare);
    case.back_mut().fill(0xe);
    case
}
