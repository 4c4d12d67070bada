//! A gate from its parts, and what it makes of amplitudes.
use super::U4;
use crate::{Complex, Gate};

impl U4 {
    /// The gate with these parts.
    pub(crate) fn from_parts(gate: &Gate) -> Self {
        let [s0, f0, s1, f1] =
            [gate.s0, gate.f0, gate.s1, gate.f1].map(|a| Complex::from_cartesian(a.re, a.im));
        Self([[s0, f0], [s1, f1]])
    }
}

fn complex([re, im]: [u64; 2]) -> Complex {
    Complex::from_cartesian(f64::from_bits(re), f64::from_bits(im))
}

/// What the gate makes of the amplitudes at a key with the bit clear and at the one with it set,
/// whether it is kept or not. Where one of them is absent there is no product of it; of two absent
/// ones nothing comes.
pub(crate) fn sums(gate: &Gate, clear: Option<[u64; 2]>, set: Option<[u64; 2]>) -> Vec<[u64; 2]> {
    let gate = U4::from_parts(gate);
    let from_clear = clear.map(|x| gate.apply(false, complex(x)));
    let from_set = set.map(|y| gate.apply(true, complex(y)));
    let new = match (from_clear, from_set) {
        (Some((clear_a, set_a)), Some((set_b, clear_b))) => {
            vec![clear_a + clear_b, set_a + set_b]
        }
        (Some((one, other)), None) | (None, Some((one, other))) => vec![one, other],
        (None, None) => vec![],
    };
    new.iter()
        .map(|a| [a.re().to_bits(), a.im().to_bits()])
        .collect()
}
