//! What a row of the table of calls says.
use crate::numbered::Slice;
use crate::{GATE_WORDS, STEP_WORDS};

/// A call: what it is called, what it takes beside a state and the lent stores, and what it gives.
#[derive(Clone, Copy, Debug, PartialEq, Eq)]
pub struct Row {
    /// Its number, where it is called by number.
    pub number: u64,
    /// Its name: that of the C function without `butrask_`, of the Rust method, and in the text
    /// form.
    pub name: &'static str,
    /// The definition that states it, of crates/calls/specs or, of a run, crates/step_lists/specs.
    pub definition: &'static str,
    /// In the order of the text form.
    pub args: &'static [Arg],
    /// What the third lent buffer is to it. None where it has no use for one.
    pub third: Option<&'static str>,
    pub state: Use,
    pub results: Results,
}

/// An argument of a call.
#[derive(Clone, Copy, Debug, PartialEq, Eq)]
pub struct Arg {
    pub name: &'static str,
    pub kind: Kind,
    pub place: Place,
}

/// What an argument is: this decides its type, its text and what stray bytes in it mean.
#[derive(Clone, Copy, Debug, PartialEq, Eq)]
pub enum Kind {
    Width,
    Qubit,
    /// A number that no test refuses.
    Number,
    Outcome,
    /// Whether the call's qubit is left out of its keys. Where it is not, the qubit is not looked
    /// at.
    LeftOut,
    /// The bit pattern of a float.
    Pattern,
    Store,
    Gate,
    Key,
    Pairs,
    Steps,
}

/// Where an argument goes in a call by number: one of the numbers a, b and c, or a slice.
#[derive(Clone, Copy, Debug, PartialEq, Eq)]
pub enum Place {
    Number(usize),
    Slice(Slice),
}

/// What a call does with the state's words.
#[derive(Clone, Copy, Debug, PartialEq, Eq)]
pub enum Use {
    /// It takes no state: they are not looked at, and may be any number of words.
    Ignores,
    /// It leaves them.
    Reads,
    /// It writes them where it was done.
    Makes,
    /// It writes them wherever it is made.
    Runs,
}

/// The words for results that a call gives.
#[derive(Clone, Copy, Debug, PartialEq, Eq)]
pub enum Results {
    Nothing,
    /// Of a gate: none as yet.
    Counts,
    Amplitude,
    Part,
    Sums,
    Change,
    Done,
    Comparison,
}

impl Row {
    /// Whether an argument is of this kind.
    pub fn takes(&self, kind: Kind) -> bool {
        self.args.iter().any(|arg| arg.kind == kind)
    }

    /// What the header says of the call beside its number.
    pub fn comment(&self) -> String {
        let takes = self
            .args
            .iter()
            .map(|Arg { name, kind, place }| format!("{} {name} ({})", place.name(), kind.note()))
            .chain(self.third.map(|name| format!("third {name}")))
            .collect::<Vec<_>>()
            .join(", ");
        let gives = self.results.names().join(", ");
        match (takes.as_str(), gives.as_str()) {
            ("", "") => String::new(),
            (takes, "") => takes.to_string(),
            ("", gives) => format!("out {gives}"),
            (takes, gives) => format!("{takes}; out {gives}"),
        }
    }
}

impl Kind {
    fn note(self) -> String {
        match self {
            Kind::Width => "one of the list".to_string(),
            Kind::Qubit => "below 64 * width".to_string(),
            Kind::Number => "any number".to_string(),
            Kind::Outcome => "0 or 1".to_string(),
            Kind::LeftOut => "0: none left out, else c is".to_string(),
            Kind::Pattern => "a pattern".to_string(),
            Kind::Store => "0 left, else right".to_string(),
            Kind::Gate => format!("{GATE_WORDS} words"),
            Kind::Key => "width words".to_string(),
            Kind::Pairs => "pairs re, im".to_string(),
            Kind::Steps => format!("{STEP_WORDS} words each"),
        }
    }
}

impl Place {
    pub const A: Place = Place::Number(0);
    pub const B: Place = Place::Number(1);
    pub const C: Place = Place::Number(2);
    pub const ARG: Place = Place::Slice(Slice::Arg);
    pub const ARG2: Place = Place::Slice(Slice::Arg2);

    /// Its name among the parameters of the call by number.
    pub fn name(self) -> &'static str {
        match self {
            Place::Number(i) => ["a", "b", "c"][i],
            Place::Slice(slice) => slice.name(),
        }
    }
}

impl Results {
    /// What each word is.
    pub const fn names(self) -> &'static [&'static str] {
        match self {
            Results::Nothing | Results::Counts => &[],
            Results::Amplitude => &["found", "re", "im"],
            Results::Part => &["store", "words"],
            Results::Sums => &["sum 0", "sum 1"],
            Results::Change => &["change"],
            Results::Done => &["done"],
            Results::Comparison => &["order", "pairs"],
        }
    }

    /// How many words they are.
    pub const fn words(self) -> usize {
        self.names().len()
    }
}
