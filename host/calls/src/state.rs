//! States.
use std::fmt::{self, Display, Formatter};
use std::str::FromStr;

/// How many words a key may have (SPECIFICATION 1.1).
pub const WIDTHS: [u64; 8] = [1, 2, 6, 14, 22, 30, 46, 62];

/// One of the two stores.
#[derive(Clone, Copy, Debug, PartialEq, Eq)]
pub enum Side {
    Left,
    Right,
}

impl Side {
    pub const BOTH: [Side; 2] = [Side::Left, Side::Right];

    pub fn other(self) -> Side {
        match self {
            Side::Left => Side::Right,
            Side::Right => Side::Left,
        }
    }

    /// The word that stands for it: 0 is left, 1 right.
    pub fn word(self) -> u64 {
        match self {
            Side::Left => 0,
            Side::Right => 1,
        }
    }

    /// The store that a word names: any word but 0 is right.
    pub fn of(word: u64) -> Side {
        match word {
            0 => Side::Left,
            _ => Side::Right,
        }
    }
}

impl Display for Side {
    fn fmt(&self, f: &mut Formatter<'_>) -> fmt::Result {
        f.write_str(match self {
            Side::Left => "left",
            Side::Right => "right",
        })
    }
}

impl FromStr for Side {
    type Err = String;

    fn from_str(text: &str) -> Result<Side, String> {
        let named = Side::BOTH.into_iter().find(|side| side.to_string() == text);
        named.ok_or_else(|| format!("{text}: expected left or right"))
    }
}

/// A state: the first n0 records of the front store are part 0, the next n1 part 1 (SPECIFICATION
/// 1.5). The fields are free to set; a call refuses a state that its stores don't hold.
///
/// It says where the records stand and does not hold them. A copy that is older than the words in
/// the stores may be accepted, and then means these words: go on with the state that the last call
/// left.
#[derive(Clone, Copy, Debug, PartialEq, Eq)]
pub struct State {
    pub width: u64,
    /// The store that holds the records.
    pub front: Side,
    pub n0: u64,
    pub n1: u64,
    /// The qubit by which the parts are told apart.
    pub tag: Option<u64>,
}

/// What the words of a state are, in their order.
pub const STATE_FIELDS: &[&str] = &["width", "front", "n0", "n1", "tagged", "tag"];

/// How many words a state has at the C boundary.
pub const STATE_WORDS: usize = STATE_FIELDS.len();

impl State {
    pub fn new(width: u64, front: Side, [n0, n1]: [u64; 2], tag: Option<u64>) -> State {
        State {
            width,
            front,
            n0,
            n1,
            tag,
        }
    }

    pub fn sizes(&self) -> [u64; 2] {
        [self.n0, self.n1]
    }

    pub fn set_sizes(&mut self, [n0, n1]: [u64; 2]) {
        (self.n0, self.n1) = (n0, n1);
    }

    /// How many entries it has, where that is a number of 64 bits.
    pub fn entries(&self) -> Option<u64> {
        self.n0.checked_add(self.n1)
    }

    pub fn words(&self) -> [u64; STATE_WORDS] {
        let tagged = u64::from(self.tag.is_some());
        let tag = self.tag.unwrap_or(0);
        [self.width, self.front.word(), self.n0, self.n1, tagged, tag]
    }

    /// The state of these words. Words that [`State::words`] doesn't give are read as the header
    /// says: any flag but 0 is a tag, and without the flag the tag's word has no meaning.
    pub fn of([width, front, n0, n1, tagged, tag]: [u64; STATE_WORDS]) -> State {
        let tag = (tagged != 0).then_some(tag);
        State::new(width, Side::of(front), [n0, n1], tag)
    }
}
