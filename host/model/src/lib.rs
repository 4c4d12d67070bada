//! docs/SPECIFICATION.md as plain Rust.
//!
//! [`Model`] performs the calls of [`butrask_calls`]: it is handed a call, a state and what is
//! lent, and answers, with the state after the call in its reply and the words after it in the
//! stores. It is written from the words of the specification, which stand beside the rules, and
//! shares nothing with the proved code. It is made to be read and not to be fast. No input makes it
//! panic.
mod amplitude;
mod model;
mod record;

pub use model::Model;
pub use record::{capacity, entries, Entry};
