//! The library's functions for tests, which are not part of what is shipped: any call by its number
//! on bytes, and the operations on amplitudes.
use butrask_calls::{Amplitude, ByNumber};

library! {
    fn butrask_call_bytes(
        number: u64, state: &mut [u8], a: usize, b: u64, c: u64, arg: &[u8], arg2: &[u8],
        left: &mut [u8], right: &mut [u8], third: &mut [u8], out: &mut [u8]
    ) -> u64;
    fn butrask_amplitude(which: u64, ar: f64, ai: f64, br: f64, bi: f64, scale: f64) -> f64;
}

/// A call by its number on bytes, words in the file form, each slice at most `MOST_BYTES` long.
/// What is lent is changed as the same call on words changes it. What stray bytes mean, the last
/// ones of a slice that is no whole words, the header says.
pub fn call(by: &mut ByNumber<u8>) -> u64 {
    let (number, [a, b, c]) = (by.number, by.numbers);
    let [state, arg, arg2, left, right, third, out] = by.slices_mut();
    let a = a as usize;
    butrask_call_bytes(number, state, a, b, c, arg, arg2, left, right, third, out)
}

/// How many results [`amplitude_results`] gives.
pub const RESULTS: usize = 13;

/// The names of the results of [`amplitude_results`], in its order.
pub const RESULT_NAMES: [&str; RESULTS] = [
    "mul re",
    "mul im",
    "accumulate re",
    "accumulate im",
    "verdict",
    "norm_inf",
    "norm2",
    "div re",
    "div im",
    "near one",
    "finite",
    "abs",
    "max",
];

/// What the proved operations give at one set of operands; a verdict or a test is 1 or 0.
pub fn amplitude_results(a: Amplitude, b: Amplitude, scale: f64) -> [f64; RESULTS] {
    std::array::from_fn(|which| butrask_amplitude(which as u64, a.re, a.im, b.re, b.im, scale))
}
