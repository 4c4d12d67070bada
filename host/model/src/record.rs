//! Records in the words of a store.
use butrask_calls::{Amplitude, State};

/// A record: its key and its amplitude. Keys compare as SPECIFICATION 1.2 orders them: word 0
/// decides first.
#[derive(Clone, Debug, PartialEq, Eq)]
pub struct Entry {
    pub key: Vec<u64>,
    /// The bit patterns of re and im.
    pub amplitude: [u64; 2],
}

impl Entry {
    pub fn bit(&self, qubit: u64) -> bool {
        bit(&self.key, qubit)
    }

    pub(crate) fn value(&self) -> Amplitude {
        Amplitude::from_patterns(self.amplitude)
    }
}

/// Qubit q is bit q mod 64 of word q/64, by whole division (SPECIFICATION 1.1).
pub fn bit(key: &[u64], qubit: u64) -> bool {
    key[(qubit / 64) as usize] >> (qubit % 64) & 1 == 1
}

/// The key with the qubit's bit as asked.
pub fn with_bit(key: &[u64], qubit: u64, set: bool) -> Vec<u64> {
    let mut key = key.to_vec();
    let mask = 1 << (qubit % 64);
    let word = &mut key[(qubit / 64) as usize];
    *word = if set { *word | mask } else { *word & !mask };
    key
}

/// A record is N+2 words: the key, then the bit patterns of re and im (1.3). For listed widths.
fn record_words(width: u64) -> usize {
    width as usize + 2
}

/// A store's capacity is the number of whole records in it (1.4). For listed widths.
pub fn capacity(store: &[u64], width: u64) -> u64 {
    (store.len() / record_words(width)) as u64
}

/// The number of words that so many records take.
pub fn words_of(records: u64, width: u64) -> usize {
    records as usize * record_words(width)
}

/// The first n0 front records are part 0, the next n1 part 1 (1.5). The front store must hold them,
/// at a listed width.
pub fn entries(state: &State, front: &[u64]) -> [Vec<Entry>; 2] {
    let width = state.width as usize;
    let mut records = front.chunks_exact(record_words(state.width)).map(|record| {
        let (key, amplitude) = record.split_at(width);
        Entry {
            key: key.to_vec(),
            amplitude: [amplitude[0], amplitude[1]],
        }
    });
    let [n0, n1] = state.sizes().map(|n| n as usize);
    let part0: Vec<Entry> = records.by_ref().take(n0).collect();
    let part1: Vec<Entry> = records.take(n1).collect();
    [part0, part1]
}

/// Writes part 0 and then part 1 from the store's start on. Words past the last record written stay
/// (3.4).
pub fn write(store: &mut [u64], parts: &[Vec<Entry>; 2]) {
    let mut at = 0;
    for entry in parts.iter().flatten() {
        for word in entry.key.iter().chain(&entry.amplitude) {
            store[at] = *word;
            at += 1;
        }
    }
}
