//! Comparisons of two keys, beside qblaze's own order of them: nanoseconds for a comparison.
use crate::rows::column;
use crate::sides::{timed, Timing};
use crate::states::Random;
use butrask_host::calls::compare;
use butrask_reference::{key_pairs, KeyPairs};
use std::hint::black_box;

/// How many pairs of keys a row has, no two of them the same. At width 62 they take 254 KB.
const PAIRS: usize = 256;

/// How often all of them are compared in one timing, and how many timings there are.
const ROUNDS: usize = 16;
const TIMINGS: usize = 201;

/// In which word the keys of a pair differ.
#[derive(Clone, Copy)]
enum Differ {
    First,
    Last,
    /// In none, or in the bit that is left out alone.
    Nowhere,
}

/// A row: its name, where the keys of its pairs differ, and whether a qubit is left out. It is one
/// of the last word, and the keys differ in its bit.
type Row = (&'static str, Differ, bool);

#[rustfmt::skip]
const ROWS: [Row; 6] = [
    ("compare, first word differs", Differ::First, false),
    ("compare, last word differs", Differ::Last, false),
    ("compare, no word differs", Differ::Nowhere, false),
    ("compare without a qubit, first word", Differ::First, true),
    ("compare without a qubit, last word", Differ::Last, true),
    ("compare without a qubit, no word", Differ::Nowhere, true),
];

/// Prints all rows of a width.
pub fn table(width: usize) {
    println!("\nwidth {width}, {PAIRS} pairs of keys: ns per comparison");
    println!("{:36} {:>9} {:>9} {:>7}", "", "library", "qblaze", "ratio");
    for (name, differ, leaves_out) in ROWS {
        // The first word is the last.
        if width == 1 && matches!(differ, Differ::Last) {
            continue;
        }
        let pairs = Pairs::new(width, differ, leaves_out);
        let (ours, theirs) = times(name, &pairs);
        let ratio = theirs.map(|theirs| ours / theirs);
        println!(
            "{name:36} {ours:9.2} {:>9} {:>7}",
            column(theirs),
            column(ratio)
        );
    }
}

/// The keys of a row, one after the other.
struct Pairs {
    width: usize,
    words: Vec<u64>,
    left_out: Option<u64>,
    /// How many pairs of words a comparison compares.
    compared: u64,
}

impl Pairs {
    fn new(width: usize, differ: Differ, leaves_out: bool) -> Pairs {
        let mut random = Random::new();
        let last = width - 1;
        let place = match differ {
            Differ::First => Some(0),
            Differ::Last => Some(last),
            Differ::Nowhere => None,
        };
        let mut words = vec![];
        for _ in 0..PAIRS {
            let a: Vec<u64> = (0..width).map(|_| random.next()).collect();
            let mut b = a.clone();
            if let Some(place) = place {
                b[place] = random.next();
            }
            if leaves_out {
                b[last] = b[last] & !1 | !a[last] & 1;
            }
            words.extend(a);
            words.extend(b);
        }
        Pairs {
            width,
            words,
            left_out: leaves_out.then_some(64 * last as u64),
            compared: place.unwrap_or(last) as u64 + 1,
        }
    }
}

/// What a comparison takes on each side, in nanoseconds: the least time. They take turns. None
/// where qblaze was not built.
fn times(name: &str, pairs: &Pairs) -> (f64, Option<f64>) {
    let mut ours = Library { pairs, orders: 0 };
    let keys = key_pairs(pairs.width as u64, &pairs.words);
    let mut theirs = keys.map(|keys| Reference {
        pairs,
        keys,
        orders: 0,
    });
    let mut least = [f64::INFINITY; 2];
    for _ in 0..TIMINGS {
        let once = [
            ours.once(),
            theirs.as_mut().map_or(f64::INFINITY, Timing::once),
        ];
        least = std::array::from_fn(|i| least[i].min(once[i]));
    }
    if let Some(theirs) = &theirs {
        assert!(ours.orders == theirs.orders, "{name}: the sides differ");
    }
    let [ours, qblaze] = least.map(|time| time / (PAIRS * ROUNDS) as f64);
    (ours, theirs.map(|_| qblaze))
}

struct Library<'a> {
    pairs: &'a Pairs,
    /// The sum of all orders.
    orders: i64,
}

impl Timing for Library<'_> {
    fn once(&mut self) -> f64 {
        let Pairs {
            width,
            words,
            left_out,
            compared,
        } = self.pairs;
        let mut counted = 0;
        let time = timed(|| {
            for _ in 0..ROUNDS {
                for pair in black_box(words).chunks_exact(2 * width) {
                    let (a, b) = pair.split_at(*width);
                    let given = compare(*width as u64, *left_out, a, b).unwrap();
                    self.orders += given.order as i64;
                    counted += given.pairs;
                }
            }
        });
        assert_eq!(counted, (PAIRS * ROUNDS) as u64 * compared);
        time
    }
}

struct Reference<'a> {
    pairs: &'a Pairs,
    keys: Box<dyn KeyPairs>,
    orders: i64,
}

impl Timing for Reference<'_> {
    fn once(&mut self) -> f64 {
        let left_out = self.pairs.left_out;
        timed(|| {
            for _ in 0..ROUNDS {
                self.orders += black_box(&self.keys).orders(left_out);
            }
        })
    }
}
