//! The numbers that a call may answer.
use std::fmt::{self, Display, Formatter};

/// A number that a call may answer, but for 0.
#[derive(Clone, Copy, Debug, PartialEq, Eq)]
pub struct AnswerRow {
    pub number: u64,
    /// The specification's word for it.
    pub name: &'static str,
    /// When it is given.
    pub condition: &'static str,
}

const fn row(number: u64, name: &'static str, condition: &'static str) -> AnswerRow {
    AnswerRow {
        number,
        name,
        condition,
    }
}

/// What a call at the C boundary answers, beside the refusals, where it was not made at all.
pub const WRONG_LENGTH: u64 = 100;
pub const WRONG_BYTES: u64 = 101;
pub const NO_CALL: u64 = 102;

/// The rows of these.
pub const BOUNDARY: [AnswerRow; 3] = [
    row(
        WRONG_LENGTH,
        "wrong length",
        "a state, a gate or a slice for results has the wrong length",
    ),
    row(
        WRONG_BYTES,
        "wrong bytes",
        "a slice has more bytes than a call on bytes takes",
    ),
    row(NO_CALL, "no call", "no call has this number"),
];

/// Makes [`Refusal`] from the rows of its table: a variant, its number, its name and when it is
/// given.
macro_rules! refusals {
    ($($variant:ident = $number:literal $name:literal: $condition:literal;)*) => {
        /// Why a call was refused, in the order in which the conditions are tested: the first that
        /// applies, down the table (SPECIFICATION 10.1).
        #[derive(Clone, Copy, Debug, PartialEq, Eq, PartialOrd, Ord)]
        pub enum Refusal {
            $($variant),*
        }

        impl Refusal {
            /// Every refusal, down the table.
            pub const ALL: [Refusal; [$($number),*].len()] = [$(Refusal::$variant),*];

            /// The row of each, in the same order.
            pub const TABLE: [AnswerRow; Refusal::ALL.len()] =
                [$(row($number, $name, $condition)),*];
        }
    };
}

refusals! {
    Step = 10 "step":
        "a step is malformed or is a premeasure in a list, words follow the last whole step, or an \
         outcome is neither 0 nor 1";
    Width = 1 "width": "the width is none of 1, 2, 6, 14, 22, 30, 46 and 62";
    Qubit = 2 "qubit": "the qubit is 64 * width or more";
    Count = 3 "count": "n0 + n1 exceeds the records of the front store";
    Order = 4 "order": "the keys of a part don't rise, or a key is in both parts";
    WrongSide = 5 "side": "the tag is 64 * width or more, or a key is on the wrong side of it";
    NotFinite = 6 "not finite": "an amplitude, gate, scale or dense part is infinite or NaN";
    Length = 7 "length": "a dense list is odd, or a key is not width words";
    Overflow = 8 "overflow": "a part that the call computes is not finite";
    Full = 9 "full": "the records to write exceed the store";
}

impl Refusal {
    fn row(self) -> &'static AnswerRow {
        &Refusal::TABLE[self as usize]
    }

    pub fn number(self) -> u64 {
        self.row().number
    }

    /// The refusal that has this number.
    pub fn from_number(number: u64) -> Option<Refusal> {
        Refusal::ALL.into_iter().find(|r| r.number() == number)
    }
}

impl Display for AnswerRow {
    fn fmt(&self, f: &mut Formatter<'_>) -> fmt::Result {
        write!(f, "{}: {}", self.condition, self.number)
    }
}

impl Display for Refusal {
    fn fmt(&self, f: &mut Formatter<'_>) -> fmt::Result {
        self.row().fmt(f)
    }
}

impl std::error::Error for Refusal {}

/// What an answer says; `butrask_refusal_name` of the header gives the same.
pub fn answer_text(number: u64) -> String {
    let mut rows = Refusal::TABLE.iter().chain(&BOUNDARY);
    match (number, rows.find(|row| row.number == number)) {
        (0, _) => "done".to_string(),
        (_, Some(row)) => row.to_string(),
        (_, None) => "no call gives this answer".to_string(),
    }
}
