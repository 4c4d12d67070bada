//! A state in its stores with calls to perform on it, and its text form.
//!
//! In the text form each line has one thing. Sizes, qubits, widths and indices are decimal; words
//! and bit patterns are hexadecimal, and a comma stands between two keys:
//!
//! ```text
//! state width 1 front left sizes 1 0 tag 0
//! left 0 3ff0000000000000 0 ffff
//! right
//! perform_u4 0 3ff0000000000000 0 0 0 3ff0000000000000 0 0 0
//! measure 0 1 4000000000000000
//! compare 2 1 1 3 2 , 1 9
//! ```
use butrask_calls::{Call, Kind, Lent, Row, Side, State, Value, GATE_WORDS, STEP_WORDS};
use std::fmt::{self, Display, Formatter};
use std::str::{FromStr, SplitAsciiWhitespace};

/// A starting state, what is lent, and the calls.
#[derive(Clone, Debug, PartialEq, Eq)]
pub struct Case {
    pub state: State,
    pub lent: Lent,
    pub calls: Vec<Call>,
}

impl Case {
    /// The state with these words in the store that it calls front, and those in the other.
    pub fn new(state: State, front: Vec<u64>, back: Vec<u64>, calls: Vec<Call>) -> Case {
        let lent = match state.front {
            Side::Left => Lent::stores(front, back),
            Side::Right => Lent::stores(back, front),
        };
        Case { state, lent, calls }
    }

    /// The words of the store that the state calls front.
    pub fn front(&self) -> &[u64] {
        self.lent.store(self.state.front)
    }

    pub fn front_mut(&mut self) -> &mut Vec<u64> {
        self.lent.store_mut(self.state.front)
    }

    pub fn back_mut(&mut self) -> &mut Vec<u64> {
        self.lent.store_mut(self.state.front.other())
    }

    /// How many words the longest slice has that is lent to one of its calls.
    pub fn longest(&self) -> usize {
        let Lent { left, right, third } = &self.lent;
        let stores = [left, right, third].map(Vec::len).into_iter();
        let words = |call: &Call| call.values().iter().map(|v| v.words().len()).max();
        let args = self.calls.iter().filter_map(words);
        stores.chain(args).max().unwrap_or(0)
    }

    /// The state in what is lent, with one call alone.
    pub fn with_call(&self, call: &Call) -> Case {
        Case {
            calls: vec![call.clone()],
            ..self.clone()
        }
    }
}

impl Display for Case {
    fn fmt(&self, f: &mut Formatter<'_>) -> fmt::Result {
        writeln!(f, "state {}", StateText(&self.state))?;
        writeln!(f, "left{}", WordsText(&self.lent.left))?;
        writeln!(f, "right{}", WordsText(&self.lent.right))?;
        // Few calls take a third buffer, so a case without one has no line for it.
        if !self.lent.third.is_empty() {
            writeln!(f, "third{}", WordsText(&self.lent.third))?;
        }
        for call in &self.calls {
            writeln!(f, "{}", CallText(call))?;
        }
        Ok(())
    }
}

/// The text form of a state.
pub(crate) struct StateText<'a>(pub &'a State);

impl Display for StateText<'_> {
    fn fmt(&self, f: &mut Formatter<'_>) -> fmt::Result {
        let state = self.0;
        let [n0, n1] = state.sizes();
        write!(
            f,
            "width {} front {} sizes {n0} {n1} tag ",
            state.width, state.front
        )?;
        match state.tag {
            Some(qubit) => write!(f, "{qubit}"),
            None => write!(f, "none"),
        }
    }
}

/// The text form of words: each after a space.
pub(crate) struct WordsText<'a>(pub &'a [u64]);

impl Display for WordsText<'_> {
    fn fmt(&self, f: &mut Formatter<'_>) -> fmt::Result {
        self.0.iter().try_for_each(|word| write!(f, " {word:x}"))
    }
}

/// The text form of a call: its name and its arguments in the order of its row.
pub(crate) struct CallText<'a>(pub &'a Call);

impl Display for CallText<'_> {
    fn fmt(&self, f: &mut Formatter<'_>) -> fmt::Result {
        let row = self.0.row();
        write!(f, "{}", row.name)?;
        for (at, (arg, value)) in row.args.iter().zip(self.0.values()).enumerate() {
            if follows_list(row, at) {
                write!(f, " {BETWEEN}")?;
            }
            match value {
                Value::Number(pattern) if arg.kind == Kind::Pattern => write!(f, " {pattern:x}")?,
                Value::Number(number) => write!(f, " {number}")?,
                Value::Flag(flag) => write!(f, " {}", u8::from(flag))?,
                Value::Side(side) => write!(f, " {side}")?,
                Value::Words(words) => write!(f, "{}", WordsText(&words))?,
            }
        }
        Ok(())
    }
}

/// What stands before a list that is not the first of its call.
const BETWEEN: &str = ",";

/// Whether an argument of a row, by its place, comes after one that goes on to the end of a line.
fn follows_list(row: &Row, at: usize) -> bool {
    row.args[..at].iter().any(|arg| arg.kind == Kind::Key)
}

/// The fields of a line that were not read yet.
struct Fields<'a>(SplitAsciiWhitespace<'a>);

impl Fields<'_> {
    fn next(&mut self) -> Result<&str, String> {
        self.0
            .next()
            .ok_or_else(|| "a field is missing".to_string())
    }

    fn number(&mut self) -> Result<u64, String> {
        let field = self.next()?;
        field.parse().map_err(|e| format!("{field}: {e}"))
    }

    fn word(&mut self) -> Result<u64, String> {
        let field = self.next()?;
        u64::from_str_radix(field, 16).map_err(|e| format!("{field}: {e}"))
    }

    /// All words up to the end of the line, or to the next list.
    fn words(&mut self) -> Result<Vec<u64>, String> {
        let mut words = vec![];
        while self.0.clone().next().is_some_and(|field| field != BETWEEN) {
            words.push(self.word()?);
        }
        Ok(words)
    }

    /// An argument of this kind.
    fn value(&mut self, kind: Kind) -> Result<Value, String> {
        Ok(match kind {
            Kind::Width | Kind::Qubit | Kind::Number => Value::Number(self.number()?),
            Kind::Pattern => Value::Number(self.word()?),
            Kind::Outcome | Kind::LeftOut => match self.number()? {
                0 => Value::Flag(false),
                1 => Value::Flag(true),
                other => return Err(format!("{other}: expected 0 or 1")),
            },
            Kind::Store => Value::Side(self.next()?.parse()?),
            Kind::Gate => {
                let words: Result<Vec<u64>, String> =
                    (0..GATE_WORDS).map(|_| self.word()).collect();
                Value::Words(words?)
            }
            Kind::Key | Kind::Pairs => Value::Words(self.words()?),
            Kind::Steps => {
                let words = self.words()?;
                if words.len() % STEP_WORDS != 0 {
                    return Err(format!("a step has {STEP_WORDS} words"));
                }
                Value::Words(words)
            }
        })
    }

    fn keyword(&mut self, expected: &str) -> Result<(), String> {
        let field = self.next()?;
        if field == expected {
            Ok(())
        } else {
            Err(format!("{field}: expected {expected}"))
        }
    }

    fn end(mut self) -> Result<(), String> {
        match self.0.next() {
            None => Ok(()),
            Some(field) => Err(format!("{field}: one field too many")),
        }
    }
}

impl FromStr for Case {
    type Err = String;

    fn from_str(text: &str) -> Result<Case, String> {
        let mut state = None;
        let (mut left, mut right, mut third) = (None, None, vec![]);
        let mut calls = vec![];
        for line in text.lines() {
            let mut fields = Fields(line.split_ascii_whitespace());
            let Some(name) = fields.0.next() else {
                continue;
            };
            match name {
                "state" => state = Some(read_state(&mut fields)?),
                "left" => left = Some(fields.words()?),
                "right" => right = Some(fields.words()?),
                "third" => third = fields.words()?,
                _ => calls.push(read_call(name, &mut fields)?),
            }
            fields.end()?;
        }
        Ok(Case {
            state: state.ok_or("there is no line state")?,
            lent: Lent {
                left: left.ok_or("there is no line left")?,
                right: right.ok_or("there is no line right")?,
                third,
            },
            calls,
        })
    }
}

fn read_state(fields: &mut Fields) -> Result<State, String> {
    fields.keyword("width")?;
    let width = fields.number()?;
    fields.keyword("front")?;
    let front = fields.next()?.parse()?;
    fields.keyword("sizes")?;
    let sizes = [fields.number()?, fields.number()?];
    fields.keyword("tag")?;
    let tag = match fields.next()? {
        "none" => None,
        field => Some(field.parse().map_err(|e| format!("{field}: {e}"))?),
    };
    Ok(State::new(width, front, sizes, tag))
}

fn read_call(name: &str, fields: &mut Fields) -> Result<Call, String> {
    let row = Row::by_name(name).ok_or_else(|| format!("{name}: no such call"))?;
    let mut values = vec![];
    for (at, arg) in row.args.iter().enumerate() {
        if follows_list(row, at) {
            fields.keyword(BETWEEN)?;
        }
        values.push(fields.value(arg.kind)?);
    }
    Call::of(row, values).ok_or_else(|| format!("{name}: the arguments are of other kinds"))
}
