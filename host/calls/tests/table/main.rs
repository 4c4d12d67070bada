//! The tables of this crate beside the C header and the definitions of the proved crates; and that
//! the comparison finds every wrong row.
mod read;

use butrask_calls::{answer_text, AnswerRow, Refusal, BOUNDARY};
use butrask_calls::{Arg, Kind, Place, Results, Row, Use, TABLE};
use butrask_calls::{GATE_WORDS, MOST_BYTES, STATE_FIELDS, STATE_WORDS, STEP_WORDS, WIDTHS};
use read::{names, within, Constant, Texts};
use std::collections::{BTreeMap, BTreeSet};

/// Everything that is compared.
#[derive(Clone)]
struct Tables {
    calls: Vec<Row>,
    /// Each refusal by the name of its variant, down the table.
    refusals: Vec<(String, AnswerRow)>,
    boundary: Vec<AnswerRow>,
    state: Vec<&'static str>,
    widths: Vec<u64>,
    gate_words: u64,
    step_words: u64,
    most_bytes: u64,
}

impl Tables {
    fn new() -> Tables {
        let variants = Refusal::ALL.map(|refusal| format!("{refusal:?}"));
        Tables {
            calls: TABLE.to_vec(),
            refusals: variants.into_iter().zip(Refusal::TABLE).collect(),
            boundary: BOUNDARY.to_vec(),
            state: STATE_FIELDS.to_vec(),
            widths: WIDTHS.to_vec(),
            gate_words: GATE_WORDS as u64,
            step_words: STEP_WORDS as u64,
            most_bytes: MOST_BYTES as u64,
        }
    }
}

/// What the tables have otherwise than the texts.
fn differences(tables: &Tables, texts: &Texts) -> Vec<String> {
    let mut differences = Differences(vec![]);
    constants_of_calls(tables, texts, &mut differences);
    constants_of_answers(tables, texts, &mut differences);
    parameters(tables, texts, &mut differences);
    dispatch(tables, texts, &mut differences);
    lengths(tables, texts, &mut differences);
    refusals(tables, texts, &mut differences);
    states(tables, texts, &mut differences);
    differences.0
}

struct Differences(Vec<String>);

impl Differences {
    fn expect<T: PartialEq + std::fmt::Debug>(&mut self, what: &str, table: T, text: T) {
        if table != text {
            self.0.push(format!(
                "{what}: the table has {table:?}, the text {text:?}"
            ));
        }
    }
}

/// The constant of C for a name of a table.
fn c_name(name: &str) -> String {
    name.to_uppercase().replace(' ', "_")
}

/// The header's numbers of calls, and what it says that each of them takes and gives.
fn constants_of_calls(tables: &Tables, texts: &Texts, differences: &mut Differences) {
    let of_row = |row: &Row| Constant {
        name: format!("CALL_{}", c_name(row.name)),
        number: row.number,
        comment: row.comment(),
    };
    let mut of_header = texts.constants();
    of_header.retain(|constant| constant.name.starts_with("CALL_"));
    let of_table: Vec<Constant> = tables.calls.iter().map(of_row).collect();
    differences.expect("calls of the header", of_table, of_header);
}

/// The header's answers, and its numbers of words.
fn constants_of_answers(tables: &Tables, texts: &Texts, differences: &mut Differences) {
    let constant = |name: &str, number: u64, comment: &str| Constant {
        name: c_name(name),
        number,
        comment: comment.to_string(),
    };
    let mut refusals: Vec<&AnswerRow> = tables.refusals.iter().map(|(_, row)| row).collect();
    refusals.sort_by_key(|row| row.number);
    let rows = refusals.into_iter().chain(&tables.boundary);
    let words = [
        ("state words", tables.state.len() as u64),
        ("gate words", tables.gate_words),
        ("gate results", Results::Counts.words() as u64),
        ("step words", tables.step_words),
    ];
    let of_table: Vec<Constant> = [constant("done", 0, "")]
        .into_iter()
        .chain(rows.map(|row| constant(row.name, row.number, row.condition)))
        .chain(words.map(|(name, number)| constant(name, number, "")))
        .collect();
    let mut of_header = texts.constants();
    of_header.retain(|constant| !constant.name.starts_with("CALL_"));
    differences.expect("answers of the header", of_table, of_header);
}

/// The parameters of each C function, beside the state and what is lent.
fn parameters(tables: &Tables, texts: &Texts, differences: &mut Differences) {
    let lent = ["state", "left", "right", "out"];
    for row in &tables.calls {
        let function = format!("butrask_{}", row.name);
        let Some(parameters) = texts.parameters(&function) else {
            differences
                .0
                .push(format!("{function} is not in the header"));
            continue;
        };
        let own = |name: &&str| !lent.contains(name) && !name.ends_with("_words");
        let of_header: BTreeSet<&str> = parameters.iter().map(String::as_str).filter(own).collect();
        let of_table = row
            .args
            .iter()
            .map(|arg| arg.name)
            .chain(row.third)
            .collect();
        differences.expect(&function, of_table, of_header);
        let gives = row.results.words() > 0;
        if gives && !parameters.contains(&"out".to_string()) {
            differences
                .0
                .push(format!("{function} takes no words for results"));
        }
    }
}

/// The definition that makes a call by its number: which definition it cites, where it takes the
/// arguments from, and what becomes of the state's words.
fn dispatch(tables: &Tables, texts: &Texts, differences: &mut Differences) {
    type Entry = (String, BTreeSet<String>, Use);
    let places = ["a", "b", "c", "arg", "arg2", "third"];
    let of_text = |text: &str| -> Entry {
        let all = names(text);
        let definition = all.iter().find(|name| name.ends_with("_at"));
        let definition = definition.map_or("", |name| name).to_string();
        let (_, arguments) = text.split_once(&definition).unwrap_or_default();
        let arguments = names(within(arguments));
        let taken = arguments.iter().filter(|name| places.contains(name));
        let body = texts.definition(&definition).unwrap_or_default();
        let state = match all.first() {
            Some(&"reading") if !arguments.contains(&"state") => Use::Ignores,
            Some(&"reading") => Use::Reads,
            _ if names(body).contains(&"ran_as") => Use::Runs,
            _ => Use::Makes,
        };
        (
            definition,
            taken.map(|name| name.to_string()).collect(),
            state,
        )
    };
    let of_row = |row: &Row| -> Entry {
        let args = row.args.iter().map(|arg| arg.place.name());
        let third = row.third.map(|_| "third");
        let taken = args.chain(third).map(str::to_string).collect();
        (row.definition.to_string(), taken, row.state)
    };
    let of_specs: BTreeMap<u64, Entry> = texts
        .by_number("call_at")
        .into_iter()
        .map(|(number, text)| (number, of_text(&text)))
        .collect();
    let of_table: BTreeMap<u64, Entry> = tables
        .calls
        .iter()
        .map(|row| (row.number, of_row(row)))
        .collect();
    for (number, entry) in &of_table {
        differences.expect(
            &format!("call_at {number}"),
            Some(entry),
            of_specs.get(number),
        );
    }
    differences.expect("calls of call_at", of_table.len(), of_specs.len());
}

/// The lengths that the definitions ask of a state, a gate and results, and how a list in bytes is
/// read.
fn lengths(tables: &Tables, texts: &Texts, differences: &mut Differences) {
    for row in &tables.calls {
        let body = texts.definition(row.definition).unwrap_or_default();
        let all = names(body);
        let asked = |slice: &str| {
            let asks = |three: &&[&str]| three[0] == "has_words" && three[2] == slice;
            texts.number(all.windows(3).find(asks)?[1])
        };
        let state = (row.state != Use::Ignores).then_some(tables.state.len() as u64);
        let gate = row.takes(Kind::Gate).then_some(tables.gate_words);
        let out = (row.results != Results::Nothing).then_some(row.results.words() as u64);
        let what = |slice: &str| format!("words of {slice} in {}", row.definition);
        differences.expect(&what("state"), state, asked("state"));
        differences.expect(&what("gate"), gate, asked("gate"));
        differences.expect(&what("out"), out, asked("out"));
    }
    let most = texts.number("array_words").map(|words| 8 * words);
    differences.expect("array_words", Some(tables.most_bytes), most);
    let lists = texts
        .by_number("arg_words")
        .into_iter()
        .filter_map(|(number, text)| {
            let all = names(&text);
            let by = all.iter().position(|name| *name == "list_words")?;
            Some((number, all[by + 1].parse::<u64>().ok()?))
        });
    let by_kind = |row: &Row| {
        let pairs = row.takes(Kind::Pairs).then_some(2);
        let steps = row.takes(Kind::Steps).then_some(tables.step_words);
        Some((row.number, pairs.or(steps)?))
    };
    let of_table: BTreeSet<(u64, u64)> = tables.calls.iter().filter_map(by_kind).collect();
    differences.expect("lists of arg_words", of_table, lists.collect());
}

/// The numbers of the refusals in the order of the table, and of the boundary's own answers.
fn refusals(tables: &Tables, texts: &Texts, differences: &mut Differences) {
    let of_table: Vec<(String, u64)> = tables
        .refusals
        .iter()
        .map(|(variant, row)| (variant.clone(), row.number))
        .collect();
    differences.expect("number_of", of_table, texts.cases("number_of"));
    for row in &tables.boundary {
        let name = row.name.replace(' ', "_");
        differences.expect(&name, Some(row.number), texts.number(&name));
    }
}

/// The words of a state in their order, and the listed widths.
fn states(tables: &Tables, texts: &Texts, differences: &mut Differences) {
    let field = |name: &&'static str| match *name {
        "front" => "side_word s.front".to_string(),
        "tagged" => "tag_flag s.tag".to_string(),
        "tag" => "tag_word s.tag".to_string(),
        name => format!("s.{name}"),
    };
    let of_table: Vec<String> = tables.state.iter().map(field).collect();
    differences.expect("state_words", of_table, texts.list("state_words"));
    let header = texts
        .header
        .split_whitespace()
        .collect::<Vec<_>>()
        .join(" ");
    for (place, name) in tables.state.iter().enumerate() {
        if !header.contains(&format!(" {place} {name}")) {
            differences.0.push(format!(
                "word {place} of a state is not {name} in the header"
            ));
        }
    }
    let widths: Vec<String> = tables.widths.iter().map(u64::to_string).collect();
    differences.expect("widths", widths.clone(), texts.list("widths"));
    let (last, others) = widths.split_last().expect("there are widths");
    let listed = format!("{} and {last}", others.join(", "));
    let row = tables
        .refusals
        .iter()
        .find(|(variant, _)| variant == "Width");
    if !row.is_some_and(|(_, row)| row.condition.ends_with(&listed)) {
        differences
            .0
            .push(format!("the condition of Width does not name {listed}"));
    }
}

#[test]
fn the_tables_are_those_of_the_header_and_the_specs() {
    let differences = differences(&Tables::new(), &Texts::read());
    assert!(differences.is_empty(), "{}", differences.join("\n"));
}

#[test]
fn answers_name_their_condition() {
    let full = "the records to write exceed the store: 9";
    assert_eq!(Refusal::Full.to_string(), full);
    assert_eq!(answer_text(9), full);
    assert_eq!(answer_text(0), "done");
    assert_eq!(answer_text(102), "no call has this number: 102");
    assert_eq!(answer_text(11), "no call gives this answer");
    for refusal in Refusal::ALL {
        assert_eq!(Refusal::from_number(refusal.number()), Some(refusal));
        assert_eq!(answer_text(refusal.number()), refusal.to_string());
    }
    assert_eq!(Refusal::from_number(0), None);
}

/// The tables with one change.
fn found(texts: &Texts, what: &str, change: impl FnOnce(&mut Tables)) {
    let mut tables = Tables::new();
    change(&mut tables);
    let differences = differences(&tables, texts);
    assert!(
        !differences.is_empty(),
        "{what}: the comparison does not find it"
    );
}

fn leaked<T>(list: Vec<T>) -> &'static [T] {
    Box::leak(list.into_boxed_slice())
}

/// Every column of every row, changed by itself.
#[test]
fn a_wrong_row_of_the_calls_is_found() {
    let texts = Texts::read();
    let mut changes = 0;
    for (i, row) in TABLE.iter().enumerate() {
        let mut wrong = |column: &str, changed: Row| {
            assert_ne!(changed, *row);
            changes += 1;
            found(&texts, &format!("{column} of {}", row.name), |t| {
                t.calls[i] = changed
            });
        };
        for number in [0, row.number + 1, 99] {
            wrong("number", Row { number, ..*row });
        }
        wrong(
            "name",
            Row {
                name: "other",
                ..*row
            },
        );
        wrong(
            "definition",
            Row {
                definition: "other_at",
                ..*row
            },
        );
        wrong(
            "third",
            Row {
                third: Some("other"),
                ..*row
            },
        );
        for state in [Use::Ignores, Use::Reads, Use::Makes, Use::Runs] {
            if state != row.state {
                wrong("state", Row { state, ..*row });
            }
        }
        for results in RESULTS {
            if results != row.results {
                wrong("results", Row { results, ..*row });
            }
        }
        for args in wrong_args(row.args) {
            wrong(
                "args",
                Row {
                    args: leaked(args),
                    ..*row
                },
            );
        }
    }
    println!("{changes} wrong rows of calls are found");
    for i in 1..TABLE.len() {
        found(&texts, "rows that changed places", |t| {
            t.calls.swap(i - 1, i)
        });
        found(&texts, "a row too few", |t| {
            t.calls.remove(i);
        });
    }
    found(&texts, "a row too many", |t| {
        t.calls.push(Row {
            number: TABLE.len() as u64 + 1,
            ..TABLE[0]
        })
    });
}

const RESULTS: [Results; 8] = [
    Results::Nothing,
    Results::Counts,
    Results::Amplitude,
    Results::Part,
    Results::Sums,
    Results::Change,
    Results::Done,
    Results::Comparison,
];

const KINDS: [Kind; 11] = [
    Kind::Width,
    Kind::Qubit,
    Kind::Number,
    Kind::Outcome,
    Kind::LeftOut,
    Kind::Pattern,
    Kind::Store,
    Kind::Gate,
    Kind::Key,
    Kind::Pairs,
    Kind::Steps,
];

const PLACES: [Place; 5] = [Place::A, Place::B, Place::C, Place::ARG, Place::ARG2];

/// The arguments with one of them changed in one column, one too few, one too many, and two that
/// changed places.
fn wrong_args(args: &[Arg]) -> Vec<Vec<Arg>> {
    let mut all = vec![];
    for (i, arg) in args.iter().enumerate() {
        let names = [Arg {
            name: "other",
            ..*arg
        }]
        .into_iter();
        let kinds = KINDS.iter().map(|kind| Arg {
            kind: *kind,
            ..*arg
        });
        let places = PLACES.iter().map(|place| Arg {
            place: *place,
            ..*arg
        });
        for changed in names
            .chain(kinds)
            .chain(places)
            .filter(|changed| changed != arg)
        {
            let mut wrong = args.to_vec();
            wrong[i] = changed;
            all.push(wrong);
        }
        let mut fewer = args.to_vec();
        fewer.remove(i);
        all.push(fewer);
        if i > 0 {
            let mut swapped = args.to_vec();
            swapped.swap(i - 1, i);
            all.push(swapped);
        }
    }
    let other = Arg {
        name: "other",
        kind: Kind::Number,
        place: Place::C,
    };
    all.push([args, &[other]].concat());
    all
}

#[test]
fn a_wrong_row_of_the_answers_is_found() {
    let texts = Texts::read();
    type Change = (&'static str, fn(&mut AnswerRow));
    let changes: [Change; 3] = [
        ("number", |row| row.number += 1),
        ("name", |row| row.name = "other"),
        ("condition", |row| row.condition = "otherwise"),
    ];
    for (column, change) in changes {
        for (i, refusal) in Refusal::ALL.iter().enumerate() {
            let what = format!("{column} of {refusal:?}");
            found(&texts, &what, |t| change(&mut t.refusals[i].1));
        }
        for (i, row) in BOUNDARY.iter().enumerate() {
            let what = format!("{column} of {}", row.name);
            found(&texts, &what, |t| change(&mut t.boundary[i]));
        }
    }
    for i in 0..Refusal::ALL.len() {
        found(&texts, "a variant", |t| {
            t.refusals[i].0 = "Other".to_string()
        });
        found(&texts, "a row too few", |t| drop(t.refusals.remove(i)));
        if i > 0 {
            found(&texts, "rows that changed places", |t| {
                t.refusals.swap(i - 1, i)
            });
        }
    }
}

#[test]
fn a_wrong_word_of_a_state_is_found() {
    let texts = Texts::read();
    for i in 0..STATE_WORDS {
        found(&texts, "a field", |t| t.state[i] = "other");
        found(&texts, "a field too few", |t| {
            t.state.remove(i);
        });
        found(&texts, "fields that changed places", |t| {
            t.state.swap(i, (i + 1) % STATE_WORDS)
        });
    }
    for i in 0..WIDTHS.len() {
        found(&texts, "a width", |t| t.widths[i] += 1);
    }
    found(&texts, "the words of a gate", |t| t.gate_words = 9);
    found(&texts, "the words of a step", |t| t.step_words = 9);
    found(&texts, "the bytes of a slice", |t| t.most_bytes -= 8);
}
