//! The words of a key, and the order of keys.
use super::{BitIndex, BitSet};
use crate::KeyPairs;

impl<const N: usize> BitSet<N> {
    /// The key that has these words.
    pub(crate) fn from_words(words: [u64; N]) -> Self {
        Self(words)
    }

    pub(crate) fn words(&self) -> &[u64; N] {
        &self.0
    }
}

struct Pairs<const N: usize>(Vec<[BitSet<N>; 2]>);

/// Keys one after the other, in pairs, if the width is one of the eight.
pub(crate) fn key_pairs(width: u64, words: &[u64]) -> Option<Box<dyn KeyPairs>> {
    fn pairs<const N: usize>(words: &[u64]) -> Option<Box<dyn KeyPairs>> {
        let (keys, _) = words.as_chunks::<N>();
        let (pairs, _) = keys.as_chunks();
        let pairs = pairs.iter().map(|pair: &[_; 2]| pair.map(BitSet));
        Some(Box::new(Pairs(pairs.collect())))
    }
    match width {
        1 => pairs::<1>(words),
        2 => pairs::<2>(words),
        6 => pairs::<6>(words),
        14 => pairs::<14>(words),
        22 => pairs::<22>(words),
        30 => pairs::<30>(words),
        46 => pairs::<46>(words),
        62 => pairs::<62>(words),
        _ => None,
    }
}

impl<const N: usize> KeyPairs for Pairs<N> {
    fn orders(&self, left_out: Option<u64>) -> i64 {
        let Some(qubit) = left_out else {
            return self.0.iter().map(|[a, b]| a.cmp(b) as i64).sum();
        };
        let index = BitIndex::new(qubit as usize);
        let without = |mut key: BitSet<N>| {
            key.set(index, false);
            key
        };
        let order = |[a, b]: &[BitSet<N>; 2]| without(*a).cmp(&without(*b)) as i64;
        self.0.iter().map(order).sum()
    }
}
