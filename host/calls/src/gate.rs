//! Amplitudes, gates, and the steps of a run.
use crate::Call;

/// An amplitude. Two are equal where their bits are, so a NaN equals itself and the zeros differ.
#[derive(Clone, Copy, Debug)]
pub struct Amplitude {
    pub re: f64,
    pub im: f64,
}

impl Amplitude {
    /// The bit patterns of re and im.
    pub fn patterns(self) -> [u64; 2] {
        [self.re.to_bits(), self.im.to_bits()]
    }

    pub fn from_patterns([re, im]: [u64; 2]) -> Amplitude {
        Amplitude {
            re: f64::from_bits(re),
            im: f64::from_bits(im),
        }
    }
}

impl PartialEq for Amplitude {
    fn eq(&self, other: &Amplitude) -> bool {
        self.patterns() == other.patterns()
    }
}

impl Eq for Amplitude {}

/// A gate: stay and flip from bit clear, stay and flip from bit set (SPECIFICATION 2.6).
#[derive(Clone, Copy, Debug, PartialEq, Eq)]
pub struct Gate {
    pub s0: Amplitude,
    pub f0: Amplitude,
    pub s1: Amplitude,
    pub f1: Amplitude,
}

/// How many words a gate has: re and im of s0, f0, s1 and f1.
pub const GATE_WORDS: usize = 8;

impl Gate {
    /// A gate of real parts.
    pub fn real(s0: f64, f0: f64, s1: f64, f1: f64) -> Gate {
        Gate::of([s0, 0.0, f0, 0.0, s1, 0.0, f1, 0.0].map(f64::to_bits))
    }

    /// The patterns of re and im of s0, f0, s1 and f1.
    pub fn words(&self) -> [u64; GATE_WORDS] {
        let amplitudes = [self.s0, self.f0, self.s1, self.f1].map(Amplitude::patterns);
        std::array::from_fn(|i| amplitudes[i / 2][i % 2])
    }

    pub fn of(words: [u64; GATE_WORDS]) -> Gate {
        let at = |i: usize| Amplitude::from_patterns([words[i], words[i + 1]]);
        Gate {
            s0: at(0),
            f0: at(2),
            s1: at(4),
            f1: at(6),
        }
    }
}

/// How many words a step has.
pub const STEP_WORDS: usize = 10;

/// A step of a run: kind, qubit, eight more (SPECIFICATION 8.1).
pub type Step = [u64; STEP_WORDS];

/// The kinds of steps.
pub mod step_kind {
    pub const GATE: u64 = 1;
    pub const MEASURE: u64 = 2;
    /// A step of `trial` alone; a run refuses it.
    pub const PREMEASURE: u64 = 3;
}

/// A gate as a step.
pub fn gate_step(qubit: u64, gate: &Gate) -> Step {
    let mut step = [0; STEP_WORDS];
    step[..2].copy_from_slice(&[step_kind::GATE, qubit]);
    step[2..].copy_from_slice(&gate.words());
    step
}

/// A measurement as a step.
pub fn measure_step(qubit: u64, outcome: bool, scale: f64) -> Step {
    let mut step = [0; STEP_WORDS];
    let words = [
        step_kind::MEASURE,
        qubit,
        u64::from(outcome),
        scale.to_bits(),
    ];
    step[..words.len()].copy_from_slice(&words);
    step
}

/// The call that a step stands for (SPECIFICATION 8.1). None where it is malformed.
pub fn call_of_step(step: &Step) -> Option<Call> {
    let [kind, qubit, rest @ ..] = *step;
    match (kind, rest) {
        (step_kind::GATE, gate) => Some(Call::PerformU4 {
            qubit,
            gate: Gate::of(gate),
        }),
        (step_kind::MEASURE, [outcome @ (0 | 1), scale, 0, 0, 0, 0, 0, 0]) => Some(Call::Measure {
            qubit,
            outcome: outcome == 1,
            scale,
        }),
        (step_kind::PREMEASURE, [0, 0, 0, 0, 0, 0, 0, 0]) => Some(Call::Premeasure { qubit }),
        _ => None,
    }
}

/// The call that a step of a run stands for: a premeasure is none.
pub fn call_in_run(step: &Step) -> Option<Call> {
    call_of_step(step).filter(|call| !matches!(call, Call::Premeasure { .. }))
}
