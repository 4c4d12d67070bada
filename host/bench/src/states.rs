//! The states that the rows begin with.
use butrask_calls::{Side, State};
use butrask_reference::{Contents, Entry};

/// Bits of the word in which the keys differ: the tag's, another one, and one that no key has set.
pub const TAG: u64 = 0;
pub const OTHER: u64 = 1;
pub const FRESH: u64 = 63;

/// Which entries of a state have a partner by the tag's qubit.
#[derive(Clone, Copy)]
pub enum Pairing {
    All,
    /// None, in turn in part 0 and part 1.
    None,
    /// None, and all are in part 0.
    Part1Empty,
    /// Two thirds, at random. About three quarters have one by the other qubit.
    TwoThirds,
}

/// A state to begin with: keys and real amplitudes in their order, in two parts.
pub struct Start {
    pub width: usize,
    /// The word in which the keys differ.
    word: usize,
    parts: [Vec<Entry>; 2],
}

impl Start {
    /// A state with about `n` entries. The keys count up in the bits above the tag's of one word,
    /// and all other words are one pattern, so that other keys of any width differ in that word and
    /// pairs in one bit of it. A clear bit of the tag doubles an amplitude, a clear bit above it
    /// makes it four times as large, so that a gate by either keeps both sums of a pair.
    pub fn new(width: usize, n: usize, pairing: Pairing, word: usize) -> Self {
        let mut random = Random::new();
        let mut parts = [vec![], vec![]];
        let mut add = |part: usize, i: u64| {
            let mut key = vec![0x5555_5555_5555_5555; width];
            key[word] = 2 * i + part as u64;
            let re = [1.0f64, 0.5][part] * [1.0, 0.25][i as usize % 2];
            let amplitude = [re.to_bits(), 0];
            parts[part].push(Entry { key, amplitude });
        };
        let mut made = 0;
        for i in 0.. {
            if made >= n {
                break;
            }
            let in_parts = match pairing {
                Pairing::All => [true, true],
                Pairing::None => [i % 2 == 0, i % 2 == 1],
                Pairing::Part1Empty => [true, false],
                Pairing::TwoThirds => match random.next() % 4 {
                    0 => [true, false],
                    1 => [false, true],
                    _ => [true, true],
                },
            };
            for (part, _) in in_parts.iter().enumerate().filter(|(_, is_in)| **is_in) {
                add(part, i);
                made += 1;
            }
        }
        Start { width, word, parts }
    }

    /// The qubit of a bit of the word in which the keys differ.
    pub fn qubit(&self, bit: u64) -> u64 {
        64 * self.word as u64 + bit
    }

    pub fn entries(&self) -> usize {
        self.parts[0].len() + self.parts[1].len()
    }

    pub fn contents(&self) -> Contents {
        Contents {
            parts: self.parts.clone(),
            tag: Some(self.qubit(TAG)),
        }
    }

    pub fn words(&self) -> Vec<u64> {
        let records = self.parts.iter().flatten();
        records
            .flat_map(|e| e.key.iter().chain(&e.amplitude).copied())
            .collect()
    }

    /// The amplitudes alone, as a dense list.
    pub fn amplitudes(&self) -> Vec<[u64; 2]> {
        self.parts.iter().flatten().map(|e| e.amplitude).collect()
    }

    pub fn state(&self) -> State {
        let sizes = self.parts.each_ref().map(|part| part.len() as u64);
        let tag = Some(self.qubit(TAG));
        State::new(self.width as u64, Side::Left, sizes, tag)
    }
}

/// A small generator of random numbers (xorshift).
pub struct Random(u64);

impl Random {
    pub fn new() -> Self {
        Random(0x9e37_79b9_7f4a_7c15)
    }

    pub fn next(&mut self) -> u64 {
        self.0 ^= self.0 << 13;
        self.0 ^= self.0 >> 7;
        self.0 ^= self.0 << 17;
        self.0
    }
}
