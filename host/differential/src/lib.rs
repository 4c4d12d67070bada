//! Drives the same calls through two sides and compares what they give.
//!
//! - [`compare::same_words`] compares any two libraries that have the calls of the table (the trait
//!   [`butrask_calls::Calls`]) on answers, states and every word that is lent, refused calls
//!   included.
//! - [`compare::as_reference`] compares one such library with the reference, which has stores of
//!   its own and no refusals: entries, their order, sizes, tag, sums and estimates of accepted
//!   calls, bit for bit; the mark of the front store by where the specification sends results;
//!   whether a call had to be refused, and with which number.
//! - [`stay::untouched`] looks at one library alone: that a call changed no word that had to stay.
//! - [`recorded`] has answers of the reference in a fixed list, for where the reference is not at
//!   hand.
//! - [`listed`] writes calls and answers as words, for the program `replay`.
//! - [`boundary`] has the calls on bytes of any length, by the model.
//!
//! Inputs come from [`generate`] (random good states), [`damage`] (bad ones) and [`exhaustive`]
//! (all small ones). [`drive`] takes them through a comparison. A failing [`Case`] is made small by
//! [`shrink`] and printed in a form that the program `differential` can replay.
//!
//! A library joins by implementing the trait:
//!
//! ```
//! use butrask_differential::{compare, drive};
//! use butrask_calls::{Call, Calls, Lent, Reply, State};
//! use butrask_model::Model;
//!
//! struct Library;
//!
//! impl Calls for Library {
//!     fn name(&self) -> &str {
//!         "library"
//!     }
//!
//!     fn call(&mut self, call: &Call, state: State, lent: &mut Lent) -> Reply {
//!         Model.call(call, state, lent) // or the library's own calls
//!     }
//! }
//!
//! let same = drive::drive(drive::all_cases(2026, 10_000), |case| {
//!     compare::same_words(&mut Library, &mut Model, case)
//! });
//! assert!(same.is_ok());
//! ```
pub mod boundary;
pub mod case;
pub mod compare;
mod counts;
pub mod damage;
pub mod drive;
pub mod exhaustive;
pub mod generate;
pub mod known;
pub mod listed;
pub mod random;
mod reasons;
pub mod recorded;
pub mod shrink;
pub mod stay;
mod words;

use butrask_calls::{Call, TABLE};
pub use case::Case;
pub use compare::{Difference, Tally};
pub use counts::Counts;
pub use drive::Failure;
pub use random::Random;
use std::io::Write;
use std::sync::Once;

/// The calls, among which there has to be one of each row of the table: a list by hand says so
/// where it lacks a call that was added.
pub fn of_every_call(calls: Vec<Call>) -> Vec<Call> {
    for row in TABLE {
        let has = calls.iter().any(|call| call.number() == row.number);
        assert!(has, "{}: add it to this list of calls", row.name);
    }
    calls
}

/// Whether the reference can be compared with. Where it was not built this panics if CI is `true`,
/// and otherwise says loudly, once, that nothing was compared.
pub fn reference_is_there() -> bool {
    static SAID: Once = Once::new();
    if butrask_reference::BUILT {
        return true;
    }
    assert!(
        std::env::var_os("CI").is_none_or(|value| value != "true"),
        "{}",
        butrask_reference::NOT_BUILT
    );
    SAID.call_once(|| say(&format!("\n*** {} ***\n", butrask_reference::NOT_BUILT)));
    false
}

/// Writes a line to standard error at once: not by `eprintln`, which the test harness holds back.
pub fn say(line: &str) {
    let written = std::io::stderr().write_all(format!("{line}\n").as_bytes());
    written.expect("standard error is there");
}
