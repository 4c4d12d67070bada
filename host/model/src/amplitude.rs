//! Amplitudes. "Each operation is rounded once", as Rust's own operators are (SPECIFICATION 2).
use butrask_calls::{Amplitude, Gate};

/// 2^-40 exactly (2.5).
const EPS: f64 = f64::from_bits(0x3d70_0000_0000_0000);

pub fn is_finite(a: Amplitude) -> bool {
    a.re.is_finite() && a.im.is_finite()
}

/// (a, b) times (c, d) is (a·c − b·d, a·d + b·c) (2.3).
fn times(x: Amplitude, y: Amplitude) -> Amplitude {
    let (a, b, c, d) = (x.re, x.im, y.re, y.im);
    Amplitude {
        re: a * c - b * d,
        im: a * d + b * c,
    }
}

fn plus(x: Amplitude, y: Amplitude) -> Amplitude {
    Amplitude {
        re: x.re + y.re,
        im: x.im + y.im,
    }
}

pub fn divided_by(a: Amplitude, scale: f64) -> Amplitude {
    Amplitude {
        re: a.re / scale,
        im: a.im / scale,
    }
}

/// The larger size of the two parts (2.4).
fn norm_inf(a: Amplitude) -> f64 {
    a.re.abs().max(a.im.abs())
}

/// re·re + im·im (2.4).
pub fn norm2(a: Amplitude) -> f64 {
    a.re * a.re + a.im * a.im
}

/// Whether a pair of a dense list becomes an entry (6.1).
pub fn is_in_dense_list(a: Amplitude) -> bool {
    norm_inf(a) >= EPS
}

/// Whether a measurement in place divides nothing (4.3).
pub fn is_near_one(scale: f64) -> bool {
    (scale - 1.0).abs() < EPS
}

/// A new amplitude and whether it becomes an entry.
#[derive(Clone, Copy, Debug)]
pub struct New {
    pub amplitude: Amplitude,
    pub kept: bool,
}

impl New {
    /// A sum is kept when its `norm_inf` > EPS × `norm_inf` of the first operand, else dropped
    /// (2.7).
    fn sum(first: Amplitude, second: Amplitude) -> New {
        let amplitude = plus(first, second);
        New {
            amplitude,
            kept: norm_inf(amplitude) > EPS * norm_inf(first),
        }
    }

    fn kept(amplitude: Amplitude) -> New {
        New {
            amplitude,
            kept: true,
        }
    }
}

/// The gate's stay and flip from a bit (2.6).
fn stay_flip(gate: &Gate, bit: bool) -> (Amplitude, Amplitude) {
    match bit {
        false => (gate.s0, gate.f0),
        true => (gate.s1, gate.f1),
    }
}

/// What a pair gives at the key of `own`, whose bit is `bit`, and at the other's, the products of
/// `own` being the first operands.
pub fn of_pair(gate: &Gate, bit: bool, own: Amplitude, other: Amplitude) -> (New, New) {
    let (own_stays, own_flips) = stay_flip(gate, bit);
    let (other_stays, other_flips) = stay_flip(gate, !bit);
    (
        New::sum(times(own_stays, own), times(other_flips, other)),
        New::sum(times(own_flips, own), times(other_stays, other)),
    )
}

/// What an entry without a partner gives at its own key and at the flipped one: always two, zeros
/// included (3.3).
pub fn of_unpaired(gate: &Gate, bit: bool, own: Amplitude) -> (New, New) {
    let (stays, flips) = stay_flip(gate, bit);
    (New::kept(times(stays, own)), New::kept(times(flips, own)))
}
