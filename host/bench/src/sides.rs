//! What takes turns in a row: the library, qblaze, and a copy of the records.
use crate::states::Start;
use butrask_calls::{Call, State};
use butrask_host::calls::Stores;
use butrask_reference::{machine, Contents, Machine};
use std::hint::black_box;
use std::time::Instant;

/// What is said of a call that no row has.
const NO_ROW: &str = "no row has this call";

/// A side of the comparison: makes the row's call and times it.
pub trait Timing {
    /// The time in nanoseconds.
    fn once(&mut self) -> f64;
}

pub fn timed(call: impl FnOnce()) -> f64 {
    let from = Instant::now();
    call();
    from.elapsed().as_nanos() as f64
}

/// What a call left: the words of both parts of the state, or the patterns of the two sums.
pub type Left = [Vec<u64>; 2];

pub struct Library<'a> {
    start: &'a Start,
    call: &'a Call,
    /// What the left store has before a call: the records, and as much again.
    words: Vec<u64>,
    stores: Stores,
    left: State,
    sums: [f64; 2],
}

impl<'a> Library<'a> {
    pub fn new(start: &'a Start, call: &'a Call) -> Self {
        let mut words = start.words();
        let room = 2 * words.len();
        words.resize(room, 1);
        Library {
            start,
            call,
            words,
            stores: Stores {
                left: vec![1; room],
                right: vec![1; room],
            },
            left: start.state(),
            sums: [0.0; 2],
        }
    }

    /// What the last call left.
    pub fn left(&self) -> Left {
        if let Call::Premeasure { .. } = self.call {
            return self.sums.map(|x| vec![x.to_bits()]);
        }
        let part_0 = (self.left.n0 * (self.left.width + 2)) as usize;
        let (part_0, part_1) = self.stores.export(&self.left).split_at(part_0);
        [part_0.to_vec(), part_1.to_vec()]
    }

    /// Loads the state and makes the call; its time.
    fn make(&mut self) -> f64 {
        let stores = &mut self.stores;
        stores.left.copy_from_slice(&self.words);
        let mut s = self.start.state();
        let time = match self.call {
            Call::PerformU4 { qubit, gate } => {
                timed(|| stores.perform_u4(&mut s, *qubit, gate).unwrap())
            }
            Call::Measure {
                qubit,
                outcome,
                scale,
            } => {
                let scale = f64::from_bits(*scale);
                timed(|| stores.measure(&mut s, *qubit, *outcome, scale).unwrap())
            }
            Call::Premeasure { qubit } => {
                timed(|| self.sums = stores.premeasure(&s, *qubit).unwrap())
            }
            Call::ImportDense { width, store, list } => {
                timed(|| s = stores.import_dense(*width, list, *store).unwrap())
            }
            Call::Check => timed(|| stores.check(&s).unwrap()),
            _ => panic!("{NO_ROW}"),
        };
        self.left = s;
        time
    }
}

impl Timing for Library<'_> {
    fn once(&mut self) -> f64 {
        self.make();
        self.make()
    }
}

/// The same of qblaze.
pub struct Reference<'a> {
    start: &'a Start,
    call: &'a Call,
    contents: Contents,
    machine: Box<dyn Machine>,
    sums: [u64; 2],
}

impl<'a> Reference<'a> {
    /// None where it was not built, and for `check`, which it does not have.
    pub fn new(start: &'a Start, call: &'a Call) -> Option<Self> {
        if let Call::Check = call {
            return None;
        }
        Some(Reference {
            start,
            call,
            contents: start.contents(),
            machine: machine(start.width as u64)?,
            sums: [0; 2],
        })
    }

    /// What the last call left.
    pub fn left(&self) -> Left {
        if let Call::Premeasure { .. } = self.call {
            return self.sums.map(|x| vec![x]);
        }
        self.machine.contents().parts.map(|part| {
            let words = part.iter().flat_map(|e| e.key.iter().chain(&e.amplitude));
            words.copied().collect()
        })
    }

    /// Loads the state and makes the call; its time.
    fn make(&mut self) -> f64 {
        let m = &mut self.machine;
        m.load_with_room(&self.contents, self.start.entries());
        match self.call {
            Call::PerformU4 { qubit, gate } => timed(|| m.perform_u4(*qubit, gate).unwrap()),
            Call::Measure {
                qubit,
                outcome,
                scale,
            } => timed(|| m.measure(*qubit, *outcome, *scale).unwrap()),
            Call::Premeasure { qubit } => timed(|| self.sums = m.premeasure(*qubit).unwrap()),
            Call::ImportDense { list, .. } => {
                let (pairs, _) = list.as_chunks();
                timed(|| m.import_dense(pairs).unwrap())
            }
            _ => panic!("{NO_ROW}"),
        }
    }
}

impl Timing for Reference<'_> {
    fn once(&mut self) -> f64 {
        // After the untimed call the buffer of the first load stands behind, where the timed call
        // writes.
        self.make();
        self.make()
    }
}

/// A copy of the records.
pub struct Copying {
    from: Vec<u64>,
    to: Vec<u64>,
}

impl Copying {
    pub fn new(start: &Start) -> Self {
        let from = start.words();
        let to = vec![1; from.len()];
        Copying { from, to }
    }
}

impl Timing for Copying {
    fn once(&mut self) -> f64 {
        timed(|| {
            self.to.copy_from_slice(black_box(&self.from));
            black_box(&mut self.to);
        })
    }
}
