//! The list of calls and answers that the program `replay` takes, and the program on lists that are
//! wrong. The tests that run the program are ignored unless they are asked for: they need
//! crates/replay/out/replay, which `rt ci` builds, or `rt run` in crates/replay.
use butrask_calls::{to_bytes, to_words, Kind, Row, Slice, Use, NO_CALL, STATE_WORDS, STEP_WORDS};
use butrask_calls::{TABLE, WIDTHS, WRONG_LENGTH};
use butrask_differential::listed::{self, items, Item};
use butrask_differential::{reference_is_there, Random};
use std::collections::BTreeSet;
use std::io::Write;
use std::path::{Path, PathBuf};
use std::process::{Command, Stdio};

fn repository() -> PathBuf {
    Path::new(env!("CARGO_MANIFEST_DIR")).join("../..")
}

/// The words of the list that the repository has.
fn words() -> Vec<u64> {
    let bytes = std::fs::read(repository().join("crates/replay/stdin")).unwrap();
    assert_eq!(bytes.len() % 8, 0);
    to_words(&bytes)
}

/// What the program prints for a list.
fn printed(list: &[u8]) -> String {
    let mut child = Command::new(repository().join("crates/replay/out/replay"))
        .stdin(Stdio::piped())
        .stdout(Stdio::piped())
        .spawn()
        .expect("crates/replay/out/replay is there: rt ci or, in crates/replay, rt run builds it");
    let mut input = child.stdin.take().unwrap();
    std::thread::scope(|scope| {
        // The program stops reading where an item is not whole, and the rest is then written to
        // nobody.
        scope.spawn(move || drop(input.write_all(list)));
        let output = child.wait_with_output().unwrap();
        assert!(output.status.success());
        String::from_utf8(output.stdout).unwrap()
    })
}

/// A number that changes one byte of a word.
fn one_byte(r: &mut Random) -> u64 {
    (1 + r.below(255)) << (8 * r.below(8))
}

#[test]
fn the_list_is_what_the_command_writes() {
    if reference_is_there() {
        let list = listed::list(listed::SEED).unwrap();
        assert!(
            list.words == words(),
            "differential --record-words writes another list"
        );
    }
}

/// What a call that was done does, as far as the list has to have it at every width. Its name, or
/// the name and how.
fn done(item: &Item) -> String {
    let row = Row::by_number(item.before.number).expect("a call that is done");
    let out = &item.after[Slice::Out];
    if row.state == Use::Ignores {
        let order = (out[0] as i64).cmp(&0);
        return format!("{} {order:?}", row.name);
    }
    let (before, after) = (item.before.state(), item.after.state());
    let by_tag = before.tag == Some(item.before.numbers[0]);
    let moved = before.front != after.front;
    let how = match row.name {
        "perform_u4" | "measure" if by_tag => " by the tag",
        "perform_u4" => " by another qubit",
        "measure" if moved => " copied",
        "measure" => " in place by another qubit",
        "lookup" if out[0] == 0 => " absent",
        "export" if out[1] == 0 => " of nothing",
        "run" if out[0] == 0 => " of nothing",
        _ => "",
    };
    format!("{}{how}", row.name)
}

/// The ways in which [`done`] has to have a call.
fn ways(name: &str) -> &'static [&'static str] {
    match name {
        "perform_u4" => &[" by the tag", " by another qubit"],
        "measure" => &[" by the tag", " copied", " in place by another qubit"],
        "lookup" => &["", " absent"],
        "compare" => &[" Less", " Equal", " Greater"],
        _ => &[""],
    }
}

/// At each width every call is done.
#[test]
fn every_call_is_done_at_every_width() {
    let mut found = BTreeSet::new();
    for item in items(&words()).iter().filter(|item| item.answer == 0) {
        let makes = Row::by_number(item.before.number).is_some_and(|row| row.takes(Kind::Width));
        let width = match makes {
            true => item.before.numbers[0],
            false => item.before.state().width,
        };
        found.insert((width, done(item)));
    }
    for width in WIDTHS {
        for row in TABLE {
            for way in ways(row.name) {
                let call = format!("{}{way}", row.name);
                assert!(found.contains(&(width, call.clone())), "{call} at {width}");
            }
        }
    }
}

/// The numbers with which a call may be refused (SPECIFICATION 10.2).
fn refusals(name: &str) -> &'static [u64] {
    match name {
        "perform_u4" => &[1, 2, 3, 4, 5, 6, 8, 9],
        "measure" | "run" => &[1, 2, 3, 4, 5, 6, 8, 9, 10],
        "premeasure" => &[1, 2, 3, 4, 5, 6],
        "fresh" => &[1, 9],
        "import_dense" => &[1, 6, 7, 9],
        "check" => &[1, 3, 4, 5, 6],
        "lookup" => &[1, 3, 4, 5, 6, 7],
        "export" => &[],
        "collapse_delta" | "forecast" => &[1, 2, 3, 4, 5, 6, 8],
        "compare" => &[1, 2, 7],
        _ => panic!("{name}: say here which refusals it has"),
    }
}

/// Every refusal that a call has, and the answers of the C boundary's own, and no others. Words for
/// results stay as they were.
#[test]
fn every_refusal_of_every_call() {
    let mut found = vec![BTreeSet::new(); TABLE.len()];
    for item in items(&words()) {
        let number = item.before.number;
        let Some(place) = TABLE.iter().position(|row| row.number == number) else {
            assert_eq!(item.answer, NO_CALL, "call {number}");
            continue;
        };
        found[place].insert(item.answer);
        let stopped = TABLE[place].takes(Kind::Steps) && item.answer < WRONG_LENGTH;
        if item.answer != 0 && !stopped {
            assert_eq!(item.before[Slice::Out], item.after[Slice::Out]);
        }
    }
    for (row, found) in TABLE.iter().zip(found) {
        let others = [0, WRONG_LENGTH];
        let all = refusals(row.name).iter().chain(&others).copied().collect();
        assert_eq!(found, all, "{}", row.name);
    }
}

/// Every call is done with words in the second argument and in the third store, and refused or not
/// made with them; those of the store stay.
#[test]
fn every_call_with_words_in_every_slice() {
    let items = items(&words());
    let has_both = |item: &&Item| {
        let slices = [Slice::Arg2, Slice::Third];
        slices.iter().all(|slice| !item.before[*slice].is_empty())
    };
    let mut found = BTreeSet::new();
    for item in items.iter().filter(has_both) {
        assert_eq!(item.before[Slice::Third], item.after[Slice::Third]);
        found.insert((item.before.number, item.answer == 0));
    }
    for row in TABLE {
        for done in [true, false] {
            assert!(found.contains(&(row.number, done)), "{} {done}", row.name);
        }
    }
    let no_call = |number: &u64| Row::by_number(*number).is_none();
    assert!(found.iter().any(|(number, _)| no_call(number)));
}

/// Comparisons at every width that end at the first pair of words, at the last, and at one between
/// them where there is one; that have each order without a qubit; that pass over a pair which
/// differs in the bit left out; and that are done and refused with any number of words in place of a
/// state.
#[test]
fn comparisons_of_every_form() {
    let items = items(&words());
    let number = Row::by_name("compare").expect("a call of the table").number;
    let comparisons = || items.iter().filter(|item| item.before.number == number);
    let done = || comparisons().filter(|item| item.answer == 0);
    for width in WIDTHS {
        let of_width = || done().filter(|item| item.before.numbers[0] == width);
        for pairs in [1, width, width / 2 + 1] {
            let ends = |item: &Item| item.after[Slice::Out][1] == pairs;
            assert!(of_width().any(ends), "width {width}: {pairs} pairs");
        }
        for order in [-1i64, 0, 1] {
            let has = |item: &Item| {
                item.before.numbers[1] != 0 && item.after[Slice::Out][0] == order as u64
            };
            assert!(of_width().any(has), "width {width}: order {order}");
        }
        let passes_over = |item: &Item| {
            let (a, b) = (&item.before[Slice::Arg], &item.before[Slice::Arg2]);
            let [_, left_out, qubit] = item.before.numbers;
            let (word, bit) = ((qubit / 64) as usize, 1 << (qubit % 64));
            let pairs = item.after[Slice::Out][1] as usize;
            // At width 1 there is no pair after it.
            let goes_on = pairs > word + 1 || width == 1;
            left_out != 0 && a[word] ^ b[word] == bit && goes_on
        };
        assert!(of_width().any(passes_over), "width {width}");
    }
    for words in [0, STATE_WORDS - 1, STATE_WORDS + 1] {
        let lent = |item: &Item| item.before[Slice::State].len() == words;
        for answer in [0, 2, 7] {
            let given = |item: &Item| lent(item) && item.answer == answer;
            assert!(comparisons().any(given), "{words} words, {answer}");
        }
    }
}

/// The items that are runs.
fn runs() -> Vec<Item> {
    let is_run =
        |item: &Item| Row::by_number(item.before.number).is_some_and(|row| row.takes(Kind::Steps));
    items(&words()).into_iter().filter(is_run).collect()
}

/// Steps that a program would take which cuts words to 32 bits, words that are not 0 in each place
/// of a measurement's zeros, and lists with one to nine words after the whole steps: each refused
/// with 10.
#[test]
fn malformed_steps_of_every_form() {
    let high = 1 << 32;
    let runs = runs();
    let refused = |what: &str, form: &dyn Fn(&[u64]) -> bool| {
        let here = |item: &Item| item.answer == 10 && form(&item.before[Slice::Arg]);
        assert!(runs.iter().any(here), "{what}");
    };
    for kind in [high + 1, high + 2] {
        refused("kind", &|arg| arg.len() == 10 && arg[0] == kind);
    }
    for outcome in [high, high + 1, high + 2] {
        refused("outcome", &|arg| {
            arg.len() == 10 && arg[0] == 2 && arg[2] == outcome
        });
    }
    for place in 4..10 {
        for word in [1, high] {
            refused("zero", &|arg| {
                let others = |i: &usize| *i != place && arg[*i] != 0;
                arg.len() == 10
                    && arg[..3] == [2, 0, 0]
                    && arg[place] == word
                    && (4..10).filter(others).count() == 0
            });
        }
    }
    for stray in 1..10 {
        for whole in [0, 1, 2, 7, 8, 9] {
            refused("stray words", &|arg| arg.len() == 10 * whole + stray);
        }
    }
}

/// Runs that end where a walk that took eight steps at a time would begin a new piece, done and
/// stopped, on steps that differ from piece to piece.
#[test]
fn runs_at_the_edges_of_pieces() {
    let runs = runs();
    // Some such run did so many steps and gave this answer, on a list of so many words.
    let has = |done: usize, answer: u64, length: &dyn Fn(usize) -> bool| {
        runs.iter().any(|item| {
            let arg = &item.before[Slice::Arg];
            let (steps, _) = arg.as_chunks::<STEP_WORDS>();
            let apart = steps.iter().skip(8).zip(steps).all(|(b, a)| a != b);
            let left_entries = || item.after.state().entries() > Some(0);
            let did = item.after[Slice::Out] == [done as u64] && item.answer == answer;
            did && apart && left_entries() && length(arg.len())
        })
    };
    for done in [7, 8, 9, 16, 17] {
        assert!(has(done, 0, &|words| words == 10 * done), "{done}");
    }
    for at in [7, 8, 16] {
        for number in [2, 10] {
            assert!(has(at, number, &|words| words == 10 * at + 10), "{at}");
            assert!(has(at, number, &|words| words >= 10 * at + 20), "{at}");
        }
    }
    for whole in [8, 9] {
        for stray in 1..10 {
            assert!(has(whole, 10, &|words| words == 10 * whole + stray));
        }
    }
}

/// One wrong byte in an answer or in a word after the call, with the item's last word made to fit:
/// the comparison alone can find it, and it names the item.
#[test]
#[ignore = "needs crates/replay/out/replay"]
fn one_wrong_byte_of_an_answer_differs() {
    let mut list = words();
    let items = items(&list);
    let mut r = Random::new(1);
    for _ in 0..100 {
        let k = r.index(items.len());
        let Item { place, after, .. } = &items[k];
        let words_after: usize = listed::after().map(|slice| after[slice].len()).sum();
        let wrong = match r.index(1 + words_after) {
            0 => place.start + listed::ANSWER,
            back => place.end - 1 - back,
        };
        let change = one_byte(&mut r);
        let change_both = |list: &mut [u64]| {
            list[wrong] ^= change;
            list[place.end - 1] ^= change;
        };
        change_both(&mut list);
        let expected = format!(
            "item {} differs\ncompared {} calls, 1 differ\n",
            k + 1,
            items.len()
        );
        assert_eq!(
            printed(&to_bytes(&list)),
            expected,
            "word {wrong}, {change:x}"
        );
        change_both(&mut list);
    }
}

/// One wrong byte anywhere.
#[test]
#[ignore = "needs crates/replay/out/replay"]
fn one_wrong_byte_fails() {
    let mut list = to_bytes(&words());
    let mut r = Random::new(2);
    for _ in 0..100 {
        let (at, change) = (r.index(list.len()), 1 + r.below(255) as u8);
        list[at] ^= change;
        let text = printed(&list);
        assert!(
            !text.ends_with(", 0 differ\n"),
            "byte {at}, {change}: {text}"
        );
        assert!(text.ends_with(" differ\n"), "byte {at}, {change}: {text}");
        list[at] ^= change;
    }
}

#[test]
#[ignore = "needs crates/replay/out/replay"]
fn a_list_that_is_not_whole_is_told() {
    let whole = words();
    let items = items(&whole);
    let told =
        |k: usize| format!("item {k} of the list is not whole\ncompared {k} calls, 1 differ\n");
    let second = items[1].place.clone();
    // Cut anywhere within the second item.
    for length in 8 * second.start + 1..8 * second.end {
        assert_eq!(printed(&to_bytes(&whole)[..length]), told(2), "{length}");
    }
    assert_eq!(
        printed(&to_bytes(&whole[..second.end])),
        "compared 2 calls, 0 differ\n"
    );
    assert_eq!(printed(b""), "compared 0 calls, 0 differ\n");
    // Numbers of words that do not fit.
    for place in listed::LENGTHS {
        for wrong in [listed::LONGEST as u64 + 1, u64::MAX] {
            let mut list = whole.clone();
            let change = list[second.start + place] ^ wrong;
            list[second.start + place] ^= change;
            list[second.end - 1] ^= change;
            assert_eq!(
                printed(&to_bytes(&list)),
                told(2),
                "word {place} is {wrong}"
            );
        }
    }
}
