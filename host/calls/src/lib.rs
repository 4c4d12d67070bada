//! The calls of Butrask: what they take and what they give, without anything that performs them.
//! The wrapper of the proved library, the plain model, the differential runs, the lists of recorded
//! answers and the benchmark all use these types. docs/SPECIFICATION.md has their meaning.
//!
//! [`TABLE`] has one row for each call, and [`Call`], the text form of a call, its form by number
//! and its answer all follow from the row. `tests/table/main.rs` compares the rows, and
//! [`Refusal`]'s, with the C header and with the definitions of the proved crates.
mod answer;
mod call;
mod gate;
mod numbered;
mod refusal;
mod state;
mod table;

pub use answer::{Answer, Calls, Lent, Reply};
pub use call::{Call, Value, CALLS, TABLE};
pub use gate::{call_in_run, call_of_step, gate_step, measure_step, step_kind};
pub use gate::{Amplitude, Gate, Step, GATE_WORDS, STEP_WORDS};
pub use numbered::{to_bytes, to_words, ByNumber, Slice, MOST_BYTES};
pub use refusal::{answer_text, AnswerRow, Refusal, BOUNDARY, NO_CALL, WRONG_BYTES, WRONG_LENGTH};
pub use state::{Side, State, STATE_FIELDS, STATE_WORDS, WIDTHS};
pub use table::{Arg, Kind, Place, Results, Row, Use};
