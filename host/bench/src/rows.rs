//! The rows of a table: a name, a state and a call, for keys that differ in their first word and in
//! their last one.
use crate::sides::{Copying, Library, Reference, Timing};
use crate::states::{Pairing, Start, FRESH, OTHER, TAG};
use crate::summary::Summary;
use butrask_calls::{Call, Gate, Side};

/// A gate that keeps both sums of each pair.
const KEEP: [f64; 4] = [1.0, 1.0, -1.0, 1.0];
/// Twice the amplitude of part 1 is its partner's, so nothing is left of any pair.
const CANCEL: [f64; 4] = [1.0, 1.0, -2.0, -2.0];

/// A row: its name, which entries of its state are paired, and its call on that state.
type Row = (&'static str, Pairing, fn(&Start) -> Call);

/// "Tag q": by the qubit that the gate is on. With another tag the records are repartitioned first.
/// Nothing is paired on a fresh qubit, which no key has set, as where part 1 is empty.
#[rustfmt::skip]
const ROWS: [Row; 14] = {
    use Pairing::*;
    [
        ("gate, tag q, all paired", All, |s| gate(s, TAG, KEEP)),
        ("gate, tag q, none paired", None, |s| gate(s, TAG, KEEP)),
        ("gate, tag q, part 1 empty", Part1Empty, |s| gate(s, TAG, KEEP)),
        ("gate, tag q, two thirds paired", TwoThirds, |s| gate(s, TAG, KEEP)),
        ("gate, tag q, all cancel", All, |s| gate(s, TAG, CANCEL)),
        ("gate, another tag", All, |s| gate(s, OTHER, KEEP)),
        ("gate, another tag, random", TwoThirds, |s| gate(s, OTHER, KEEP)),
        ("gate, another tag, fresh qubit", All, |s| gate(s, FRESH, KEEP)),
        ("measure by the tag", All, |s| measure(s, TAG, true)),
        ("measure, half copied", All, |s| measure(s, OTHER, true)),
        ("measure, all match", All, |s| measure(s, FRESH, false)),
        ("sums", All, |s| Call::Premeasure { qubit: s.qubit(OTHER) }),
        ("import_dense", All, import_dense),
        ("check", All, |_| Call::Check),
    ]
};

fn import_dense(start: &Start) -> Call {
    Call::ImportDense {
        width: start.width as u64,
        store: Side::Right,
        list: start.amplitudes().into_flattened(),
    }
}

/// A real gate on the qubit of a bit.
fn gate(start: &Start, bit: u64, [s0, f0, s1, f1]: [f64; 4]) -> Call {
    Call::PerformU4 {
        qubit: start.qubit(bit),
        gate: Gate::real(s0, f0, s1, f1),
    }
}

fn measure(start: &Start, bit: u64, outcome: bool) -> Call {
    Call::Measure {
        qubit: start.qubit(bit),
        outcome,
        scale: 2.0f64.to_bits(),
    }
}

/// Prints all rows of a width and a number of entries, and sums them up.
pub fn table(width: usize, n: usize) -> Summary {
    println!("\nwidth {width}, {n} entries: ns per entry, memory written before");
    println!(
        "{:36} {:>9} {:>9} {:>7} {:>9} {:>9}",
        "", "library", "qblaze", "ratio", "copying", "at most"
    );
    let mut summary = Summary::new(width, n);
    for (name, pairing, call) in ROWS {
        row(name, Start::new(width, n, pairing, 0), call, &mut summary);
    }
    let last = width - 1;
    if last > 0 {
        for (name, pairing, call) in ROWS {
            // The keys of an import are its own.
            if name != "import_dense" {
                let start = Start::new(width, n, pairing, last);
                row(&format!("{name}, late"), start, call, &mut summary);
            }
        }
    }
    summary
}

/// Prints a row, with a mark where it takes more than it may.
fn row(name: &str, start: Start, call: fn(&Start) -> Call, summary: &mut Summary) {
    let (start, call) = (&start, &call(&start));
    let times = Times::of(name, start, call);
    let ratio = times.theirs.map(|theirs| times.ours / theirs);
    let most = most(start, call, &times);
    let over = most.map(|most| times.ours > most);
    println!(
        "{name:36} {:9.2} {:>9} {:>7} {:9.2} {:>9}{}",
        times.ours,
        column(times.theirs),
        column(ratio),
        times.copy,
        column(most),
        if over == Some(true) { " over" } else { "" },
    );
    summary.add(call, ratio, over);
}

/// A number of a row, if it has it.
pub fn column(x: Option<f64>) -> String {
    x.map_or("-".into(), |x| format!("{x:.2}"))
}

/// What each side of a row takes, in nanoseconds for an entry.
struct Times {
    ours: f64,
    /// None where qblaze has no such call or was not built.
    theirs: Option<f64>,
    copy: f64,
    check: f64,
}

impl Times {
    /// The least time of each side. They take turns, so that a machine which is slow for a while is
    /// slow for all.
    fn of(name: &str, start: &Start, call: &Call) -> Times {
        let mut ours = Library::new(start, call);
        let mut theirs = Reference::new(start, call);
        if let Some(theirs) = &mut theirs {
            ours.once();
            theirs.once();
            assert!(ours.left() == theirs.left(), "{name}: the sides differ");
        }
        let mut copy = Copying::new(start);
        let mut check = Library::new(start, &Call::Check);
        let mut least = [f64::INFINITY; 4];
        for _ in 0..repeats(start) {
            let once = [
                ours.once(),
                theirs.as_mut().map_or(f64::INFINITY, Timing::once),
                copy.once(),
                check.once(),
            ];
            least = std::array::from_fn(|i| least[i].min(once[i]));
        }
        let [ours, qblaze, copy, check] = least.map(|time| time / start.entries() as f64);
        Times {
            ours,
            theirs: theirs.map(|_| qblaze),
            copy,
            check,
        }
    }
}

/// How often each side of a row is timed. Large states are timed less often.
fn repeats(start: &Start) -> usize {
    match start.entries() * (start.width + 2) {
        0..1_000_000 => 41,
        1_000_000..10_000_000 => 15,
        _ => 3,
    }
}

/// The most that a row may take. What is allowed is said of large states; small ones stay in the
/// nearest cache, where copying costs next to nothing.
fn most(start: &Start, call: &Call, times: &Times) -> Option<f64> {
    let (width, n) = (start.width, start.entries());
    if n < 100_000 {
        return None;
    }
    match call {
        Call::PerformU4 { .. } => {
            let k = match width {
                62 if n >= 1_000_000 => 0.8,
                6.. => 1.0,
                _ => 1.2,
            };
            times.theirs.map(|theirs| k * theirs)
        }
        Call::Check => Some(if width < 6 { 2.0 } else { 1.0 } * times.copy),
        _ => times.theirs.map(|theirs| theirs + times.check),
    }
}
