//! Calls by their numbers, as `butrask_call_bytes` takes them.
use crate::{Call, Lent, Place, State};
use std::ops::{Index, IndexMut};

/// A slice that a call by number is lent.
#[derive(Clone, Copy, Debug, PartialEq, Eq)]
pub enum Slice {
    State,
    Arg,
    Arg2,
    Left,
    Right,
    Third,
    Out,
}

impl Slice {
    pub const ALL: [Slice; 7] = [
        Slice::State,
        Slice::Arg,
        Slice::Arg2,
        Slice::Left,
        Slice::Right,
        Slice::Third,
        Slice::Out,
    ];

    /// Whether a call may change its words.
    pub fn is_mutable(self) -> bool {
        !matches!(self, Slice::Arg | Slice::Arg2)
    }

    /// Its name among the parameters of the call by number.
    pub fn name(self) -> &'static str {
        ["state", "arg", "arg2", "left", "right", "third", "out"][self as usize]
    }
}

/// The most bytes that a slice has in a call on bytes.
pub const MOST_BYTES: usize = 65_536;

/// A call by its number with everything that it is lent, in words or in bytes.
#[derive(Clone, Debug, PartialEq, Eq)]
pub struct ByNumber<T> {
    pub number: u64,
    /// The numbers a, b and c, 0 where the call has no use for them.
    pub numbers: [u64; 3],
    /// In the order of [`Slice::ALL`].
    slices: [Vec<T>; Slice::ALL.len()],
}

impl<T> Index<Slice> for ByNumber<T> {
    type Output = Vec<T>;

    fn index(&self, slice: Slice) -> &Vec<T> {
        &self.slices[slice as usize]
    }
}

impl<T> IndexMut<Slice> for ByNumber<T> {
    fn index_mut(&mut self, slice: Slice) -> &mut Vec<T> {
        &mut self.slices[slice as usize]
    }
}

impl<T> ByNumber<T> {
    /// A number with slices that are all empty.
    pub fn empty(number: u64) -> ByNumber<T> {
        ByNumber {
            number,
            numbers: [0; 3],
            slices: std::array::from_fn(|_| vec![]),
        }
    }

    /// All slices, to be lent at once.
    pub fn slices_mut(&mut self) -> &mut [Vec<T>; Slice::ALL.len()] {
        &mut self.slices
    }
}

impl ByNumber<u64> {
    /// A call with the right lengths, and words for results that are this one.
    pub fn new(call: &Call, state: State, lent: &Lent, ungiven: u64) -> ByNumber<u64> {
        let row = call.row();
        let mut by = ByNumber::empty(row.number);
        for (arg, value) in row.args.iter().zip(call.values()) {
            match arg.place {
                Place::Number(i) => by.numbers[i] = value.number().expect("it goes as a number"),
                Place::Slice(slice) => by[slice] = value.words().to_vec(),
            }
        }
        by[Slice::State] = state.words().to_vec();
        by[Slice::Left] = lent.left.clone();
        by[Slice::Right] = lent.right.clone();
        by[Slice::Third] = lent.third.clone();
        by[Slice::Out] = vec![ungiven; row.results.words()];
        by
    }

    /// The state that it is lent, which must have the right length.
    pub fn state(&self) -> State {
        let words = self[Slice::State].clone();
        State::of(words.try_into().expect("the words of a state"))
    }

    /// The buffers that it is lent.
    pub fn lent(&self) -> Lent {
        Lent {
            left: self[Slice::Left].clone(),
            right: self[Slice::Right].clone(),
            third: self[Slice::Third].clone(),
        }
    }

    /// The same in bytes.
    pub fn bytes(&self) -> ByNumber<u8> {
        ByNumber {
            number: self.number,
            numbers: self.numbers,
            slices: self.slices.each_ref().map(|words| to_bytes(words)),
        }
    }
}

impl ByNumber<u8> {
    /// The whole words of every slice.
    pub fn words(&self) -> ByNumber<u64> {
        ByNumber {
            number: self.number,
            numbers: self.numbers,
            slices: self.slices.each_ref().map(|bytes| to_words(bytes)),
        }
    }
}

/// Words in the file form, little-endian (SPECIFICATION 1.3).
pub fn to_bytes(words: &[u64]) -> Vec<u8> {
    words.iter().flat_map(|word| word.to_le_bytes()).collect()
}

/// The whole words of a file.
pub fn to_words(bytes: &[u8]) -> Vec<u64> {
    let (words, _) = bytes.as_chunks();
    words.iter().map(|word| u64::from_le_bytes(*word)).collect()
}
