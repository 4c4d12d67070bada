//! Random cases: accepted states whose keys come in clusters that differ in few bits, and calls on
//! those bits.
use crate::words::{bit, flip};
use crate::{Case, Random};
use butrask_calls::{gate_step, measure_step, Call, Gate, Side, State, Step, STEP_WORDS, WIDTHS};
use std::collections::BTreeSet;

/// 2^-40.
const EPS: f64 = f64::from_bits(0x3d70_0000_0000_0000);

/// Bit patterns at which something may change: zeros, subnormals, neighbours of 1 and of 2^-40, the
/// largest.
const EDGES: [u64; 17] = [
    0,
    1,
    2,
    0x000f_ffff_ffff_ffff,
    0x0010_0000_0000_0000,
    0x0010_0000_0000_0001,
    0x3d6f_ffff_ffff_ffff,
    0x3d70_0000_0000_0000,
    0x3d70_0000_0000_0001,
    0x3fef_ffff_ffff_ffff,
    0x3ff0_0000_0000_0000,
    0x3ff0_0000_0000_0001,
    0x4270_0000_0000_0000,
    0x4340_0000_0000_0000,
    0x5fe0_0000_0000_0000,
    0x7fe0_0000_0000_0000,
    0x7fef_ffff_ffff_ffff,
];

/// Bit patterns of an infinity or a NaN.
pub const NOT_FINITE: [u64; 8] = [
    0x7ff0_0000_0000_0000,
    0xfff0_0000_0000_0000,
    0x7ff0_0000_0000_0001,
    0x7ff8_0000_0000_0000,
    0xfff8_0000_0000_0000,
    0x7fff_ffff_ffff_ffff,
    0xffff_ffff_ffff_ffff,
    0xfff4_0000_0000_0000,
];

/// What the keys and calls of one case are about.
struct Topic {
    width: u64,
    /// The qubits in which keys differ and on which gates work.
    qubits: Vec<u64>,
    keys: BTreeSet<Vec<u64>>,
    /// Which floats amplitudes and gates have.
    palette: Palette,
}

#[derive(Clone, Copy)]
enum Palette {
    Whole,
    Units,
    NearOne,
    Edges,
    Any,
}

const PALETTES: [Palette; 5] = [
    Palette::Whole,
    Palette::Units,
    Palette::NearOne,
    Palette::Edges,
    Palette::Any,
];

/// An accepted state with up to eight calls.
pub fn case(r: &mut Random) -> Case {
    let width = if r.chance(40) { 1 } else { r.pick(&WIDTHS) };
    case_of_width(r, width)
}

/// The same at a given width.
pub fn case_of_width(r: &mut Random, width: u64) -> Case {
    let topic = Topic::new(r, width);
    let tag = r.chance(60).then(|| topic.qubit(r));
    let parts = split(r, &topic.keys, tag);
    let mut records = parts.concat();
    topic.add_amplitudes(r, &mut records);
    let mut front = records.concat();
    let mut back = vec![];
    // Where there is little room, there may still be enough for a measurement.
    let back_words = parts[0].len() * (width as usize + 2) + topic.spare_words(r);
    let front_words = front.len() + topic.spare_words(r);
    front.resize_with(front_words, || r.word());
    back.resize_with(back_words, || r.word());
    let sizes = [parts[0].len() as u64, parts[1].len() as u64];
    let state = State::new(width, r.pick(&Side::BOTH), sizes, tag);
    let calls = (0..1 + r.below(8)).map(|_| topic.call(r)).collect();
    Case::new(state, front, back, calls)
}

/// The keys by the tag's bit, or in one part or both as it comes.
fn split(r: &mut Random, keys: &BTreeSet<Vec<u64>>, tag: Option<u64>) -> [Vec<Vec<u64>>; 2] {
    let mut parts = [vec![], vec![]];
    let how = r.below(4);
    for key in keys {
        let part = match tag {
            Some(qubit) => usize::from(bit(key, qubit)),
            None if how == 0 => 0,
            None if how == 1 => 1,
            None => r.index(2),
        };
        parts[part].push(key.clone());
    }
    parts
}

impl Topic {
    fn new(r: &mut Random, width: u64) -> Topic {
        let qubits: Vec<u64> = (0..1 + r.below(4)).map(|_| any_qubit(r, width)).collect();
        let bases: Vec<Vec<u64>> = (0..1 + r.below(3)).map(|_| base_key(r, width)).collect();
        let wanted = if r.chance(10) { 24 } else { r.below(9) };
        let mut keys = BTreeSet::new();
        for _ in 0..wanted {
            let mut key = bases[r.index(bases.len())].clone();
            for &qubit in &qubits {
                if r.chance(50) {
                    flip(&mut key, qubit);
                }
            }
            keys.insert(key);
        }
        Topic {
            width,
            qubits,
            keys,
            palette: r.pick(&PALETTES),
        }
    }

    /// A qubit that matters, mostly.
    fn qubit(&self, r: &mut Random) -> u64 {
        if r.chance(90) {
            r.pick(&self.qubits)
        } else {
            any_qubit(r, self.width)
        }
    }

    /// Ample room, mostly; else a few records, a part of one, or nothing.
    fn spare_words(&self, r: &mut Random) -> usize {
        let record = self.width as usize + 2;
        match r.below(8) {
            0 => r.index(4) * record,
            1 => r.index(record),
            _ => (24 + r.index(100)) * record + r.index(record),
        }
    }

    fn float(&self, r: &mut Random) -> f64 {
        let palette = if r.chance(10) {
            r.pick(&PALETTES)
        } else {
            self.palette
        };
        float(r, palette)
    }

    /// Appends the patterns of an amplitude to each key. Most pairs get amplitudes that cancel, or
    /// nearly.
    fn add_amplitudes(&self, r: &mut Random, records: &mut [Vec<u64>]) {
        let width = self.width as usize;
        for at in 0..records.len() {
            let mut partner = records[at].clone();
            flip(&mut partner, r.pick(&self.qubits));
            let place = records[..at].iter().position(|r| r[..width] == partner[..]);
            let mut amplitude = self.amplitude(r);
            if let Some(place) = place.filter(|_| r.chance(70)) {
                let other = &mut records[place][width..];
                amplitude = cancelling(r, [other[0], other[1]].map(f64::from_bits));
                // Either of the two may be the one that the other was made from.
                if r.chance(50) {
                    let theirs = amplitude.map(f64::to_bits);
                    amplitude = [other[0], other[1]].map(f64::from_bits);
                    other.copy_from_slice(&theirs);
                }
            }
            records[at].extend(amplitude.map(f64::to_bits));
        }
    }

    fn amplitude(&self, r: &mut Random) -> [f64; 2] {
        let re = self.float(r);
        match r.below(4) {
            0 => [re, 0.0],
            1 => [re, re],
            _ => [re, self.float(r)],
        }
    }

    fn call(&self, r: &mut Random) -> Call {
        // Some calls are to be refused.
        let qubit = if r.chance(2) {
            r.pick(&[64 * self.width, 64 * self.width + 1, 1 << 32, u64::MAX])
        } else {
            self.qubit(r)
        };
        match r.below(100) {
            0..33 => Call::PerformU4 {
                qubit,
                gate: self.gate(r),
            },
            33..49 => Call::Measure {
                qubit,
                outcome: r.chance(50),
                scale: self.scale(r).to_bits(),
            },
            49..58 => Call::Premeasure { qubit },
            58..66 => Call::Lookup { key: self.key(r) },
            66..75 => Call::CollapseDelta {
                qubit,
                gate: self.gate(r),
                index: if r.chance(80) { r.below(12) } else { r.word() },
            },
            75..81 => Call::Forecast {
                qubit,
                gate: self.gate(r),
            },
            81..84 => Call::Export,
            84..86 => Call::Check,
            86..89 => self.import_dense(r),
            89 => Call::Fresh {
                width: if r.chance(90) {
                    self.width
                } else {
                    r.pick(&[0, 1, 3, 14, 62, 63, u64::MAX])
                },
            },
            90..95 => Call::Run {
                steps: self.steps(r),
            },
            _ => self.compare(r),
        }
    }

    /// Keys that agree in most words, of the state's width, mostly, or of another.
    fn compare(&self, r: &mut Random) -> Call {
        let (mut width, mut qubit) = (self.width, self.qubit(r));
        if r.chance(20) {
            width = r.pick(&WIDTHS);
            qubit = any_qubit(r, width);
        }
        let left_out = r.chance(60);
        let mut a = match self.keys.first() {
            Some(key) if width == self.width && r.chance(50) => key.clone(),
            _ => base_key(r, width),
        };
        let mut b = a.clone();
        if r.chance(40) {
            flip(&mut b, qubit);
        }
        // In the first word, in the last, in the qubit's, in one or two at random, or in none.
        let last = width as usize - 1;
        let places = match r.below(7) {
            0 | 1 => vec![],
            2 => vec![0],
            3 => vec![last],
            4 => vec![(qubit / 64) as usize],
            5 => vec![r.index(a.len())],
            _ => vec![r.index(a.len()), r.index(a.len())],
        };
        for place in places {
            b[place] = match r.below(3) {
                0 => b[place] ^ 1 << r.below(64),
                1 => r.pick(&[0, 1, 1 << 63, u64::MAX]),
                _ => r.word(),
            };
        }
        if r.chance(50) {
            std::mem::swap(&mut a, &mut b);
        }
        // Some are to be refused. A qubit that is not left out is never looked at.
        for key in [&mut a, &mut b] {
            match r.below(30) {
                0 => drop(key.pop()),
                1 => key.push(r.below(2)),
                _ => {}
            }
        }
        if r.chance(if left_out { 5 } else { 50 }) {
            qubit = r.pick(&[64 * width, 64 * width + 1, 1 << 32, u64::MAX]);
        }
        if r.chance(4) {
            width = r.pick(&[0, 3, 63, 64, (1 << 32) + width, u64::MAX]);
        }
        Call::Compare {
            width,
            left_out,
            qubit,
            a,
            b,
        }
    }

    fn gate(&self, r: &mut Random) -> Gate {
        let unit = |r: &mut Random| r.pick(&[[1.0, 0.0], [-1.0, 0.0], [0.0, 1.0], [0.0, -1.0]]);
        let mut parts = match r.below(6) {
            // 1 1 −1 1, and its kin with i.
            0 => [1.0, 0.0, 1.0, 0.0, -1.0, 0.0, 1.0, 0.0],
            1 => [0.0, 1.0, 1.0, 0.0, 1.0, 0.0, 0.0, 1.0],
            // A pair's products are its amplitudes turned alike, so that amplitudes that cancel
            // have sums that vanish.
            2 | 3 => {
                let ([a, b], [c, d]) = (unit(r), unit(r));
                let sign = r.pick(&[1.0, -1.0, 0.0, 0.5]);
                [a, b, c, d, c * sign, d * sign, a, b]
            }
            _ => [0.0; 8].map(|_| self.float(r)),
        };
        if r.chance(2) {
            parts[r.index(8)] = f64::from_bits(r.pick(&NOT_FINITE));
        }
        if r.chance(5) {
            parts[r.index(8)] = -0.0;
        }
        Gate::of(parts.map(f64::to_bits))
    }

    fn scale(&self, r: &mut Random) -> f64 {
        match r.below(8) {
            0 => 0.0,
            1 => self.float(r),
            2 => f64::from_bits(r.pick(&EDGES)),
            3 if r.chance(20) => f64::from_bits(r.pick(&NOT_FINITE)),
            4 => r.pick(&[2.0, 0.5, -1.0, std::f64::consts::SQRT_2]),
            _ => {
                let from = r.pick(&[0.0, EPS, -EPS, EPS / 2.0, -EPS / 2.0]);
                nudged(r, 1.0 + from)
            }
        }
    }

    fn key(&self, r: &mut Random) -> Vec<u64> {
        let mut key = match self.keys.iter().nth(r.index(self.keys.len() + 1)) {
            Some(key) => key.clone(),
            None => base_key(r, self.width),
        };
        if r.chance(30) {
            flip(&mut key, r.pick(&self.qubits));
        }
        if r.chance(4) {
            key.pop();
        }
        if r.chance(4) {
            key.push(r.below(2));
        }
        key
    }

    fn import_dense(&self, r: &mut Random) -> Call {
        let length = 2 * r.index(20) + usize::from(r.chance(4));
        let mut list: Vec<u64> = (0..length)
            .map(|_| {
                match r.below(3) {
                    0 => nudged(r, EPS),
                    1 => 0.0,
                    _ => self.float(r),
                }
                .to_bits()
            })
            .collect();
        if r.chance(4) && length > 0 {
            list[r.index(length)] = r.pick(&NOT_FINITE);
        }
        Call::ImportDense {
            width: if r.chance(95) {
                self.width
            } else {
                r.pick(&[0, 1, 2, 4, 62, 64])
            },
            store: r.pick(&Side::BOTH),
            list,
        }
    }

    /// Few steps, mostly; else about eight or sixteen, where a walk that took eight steps at a time
    /// would begin a new piece, or up to twenty. Now and then one more, which is refused.
    fn steps(&self, r: &mut Random) -> Vec<Step> {
        let length = match r.below(8) {
            0 => r.pick(&[7, 8, 9, 15, 16, 17]),
            1 => r.below(21),
            _ => r.below(5),
        };
        let mut steps: Vec<Step> = (0..length).map(|_| self.step(r)).collect();
        if r.chance(20) {
            steps.push([3; STEP_WORDS]);
        }
        steps
    }

    fn step(&self, r: &mut Random) -> Step {
        let qubit = self.qubit(r);
        let mut step = if r.chance(60) {
            gate_step(qubit, &self.gate(r))
        } else {
            let outcome = r.below(2) == 1;
            measure_step(qubit, outcome, self.scale(r))
        };
        if r.chance(4) {
            let word = r.pick(&[0, 2, 4, 9]);
            step[word] = r.pick(&[0, 1, 2, 3, 4, u64::MAX]);
        }
        step
    }
}

/// A qubit at a word's edge or anywhere.
fn any_qubit(r: &mut Random, width: u64) -> u64 {
    let last = 64 * width - 1;
    match r.below(4) {
        0 => r.pick(&[0, 1, 63, last, last - 1]),
        1 => r.below(width) * 64 + r.pick(&[0, 63]),
        _ => r.below(last + 1),
    }
}

fn base_key(r: &mut Random, width: u64) -> Vec<u64> {
    let mut key = vec![0; width as usize];
    match r.below(4) {
        0 => {}
        1 => flip(&mut key, any_qubit(r, width)),
        2 => key.fill_with(|| r.pick(&[0, 1, u64::MAX])),
        _ => key.fill_with(|| r.word()),
    }
    key
}

/// A finite float.
fn float(r: &mut Random, palette: Palette) -> f64 {
    finite(match palette {
        Palette::Whole => r.below(33) as f64 - 16.0,
        Palette::Units => r.pick(&[0.0, -0.0, 1.0, -1.0, 2.0, 0.5]),
        Palette::NearOne => {
            f64::from_bits((r.word() & 0x800f_ffff_ffff_ffff) | (1015 + r.below(17)) << 52)
        }
        Palette::Edges => f64::from_bits(r.pick(&EDGES) | r.below(2) << 63),
        Palette::Any => f64::from_bits(r.word()),
    })
}

/// The float, or 1 where it is not finite.
fn finite(x: f64) -> f64 {
    if x.is_finite() {
        x
    } else {
        1.0
    }
}

/// The float up to 3 patterns up or down; 1 where that is not finite.
fn nudged(r: &mut Random, x: f64) -> f64 {
    finite(f64::from_bits(
        x.to_bits().wrapping_add(r.below(7)).wrapping_sub(3),
    ))
}

/// An amplitude whose sum with this one is 0, or within a few patterns of 2^-40 of it.
fn cancelling(r: &mut Random, amplitude: [f64; 2]) -> [f64; 2] {
    let of = match r.below(8) {
        0 => 0.0,
        1 => 2.0 * EPS,
        2 => EPS / 2.0,
        3 => -EPS,
        _ => EPS,
    };
    let nudge = r.chance(40);
    amplitude.map(|a| {
        let other = a * of - a;
        if nudge && a != 0.0 {
            nudged(r, other)
        } else {
            finite(other)
        }
    })
}
