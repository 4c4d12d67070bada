//! The proved library as safe Rust functions, in [`calls`]: every call on a state, runs, a gate's
//! weight and comparisons of keys. With the feature `probe`, which the tests use, also any call by
//! its number on bytes and the operations on amplitudes.
#[macro_use]
mod c;
pub mod calls;
#[cfg(feature = "probe")]
pub mod probe;

pub use butrask_calls::Amplitude;
