//! The reference: qblaze's `StatevectorImpl`, working in one chunk, behind an interface of numbers.
//!
//! The build script assembles it from qblaze's own sources, which are not in this repository: from
//! the folder that QBLAZE_SRC names, or from `shared/docs/src` beside the repository. What those
//! sources name and do not hold is in `standins`. Without the sources this crate builds all the
//! same, and [`machine`] gives nothing.
use butrask_calls::Gate;
use std::any::Any;
use std::cell::Cell;
use std::fmt::{self, Display, Formatter};
use std::panic::{self, AssertUnwindSafe};
use std::sync::Once;

#[cfg(qblaze)]
include!(concat!(env!("OUT_DIR"), "/qblaze/root.rs"));

/// The widths that the reference has a type for: its own list, which a test compares with the
/// specification's.
pub const WIDTHS: [u64; 8] = [1, 2, 6, 14, 22, 30, 46, 62];

/// An entry of a state.
#[derive(Clone, Debug, PartialEq, Eq)]
pub struct Entry {
    /// The words of the key.
    pub key: Vec<u64>,
    /// The bit patterns of re and im.
    pub amplitude: [u64; 2],
}

/// What a state holds: the entries of both parts in their order, and the tag.
#[derive(Clone, Debug, Default, PartialEq, Eq)]
pub struct Contents {
    pub parts: [Vec<Entry>; 2],
    pub tag: Option<u64>,
}

impl Display for Contents {
    fn fmt(&self, f: &mut Formatter<'_>) -> fmt::Result {
        match self.tag {
            Some(qubit) => write!(f, "tag {qubit}")?,
            None => write!(f, "tag none")?,
        }
        for (i, part) in self.parts.iter().enumerate() {
            write!(f, ", part {i}:")?;
            for Entry { key, amplitude } in part {
                write!(f, " [{key:x?}: {:x} {:x}]", amplitude[0], amplitude[1])?;
            }
        }
        Ok(())
    }
}

/// A call of the reference that panicked, with its message. The state after it is not to be used.
#[derive(Clone, Debug, PartialEq, Eq)]
pub struct Stopped(pub String);

impl Display for Stopped {
    fn fmt(&self, f: &mut Formatter<'_>) -> fmt::Result {
        write!(f, "stopped: {}", self.0)
    }
}

/// A state of the reference. It starts fresh.
pub trait Machine {
    /// Replaces the state by one with these contents, which are not tested.
    fn load(&mut self, contents: &Contents) {
        self.load_with_room(contents, 0);
    }
    /// The same, in a buffer that has room for so many entries more, in memory that was written.
    fn load_with_room(&mut self, contents: &Contents, more: usize);
    fn contents(&self) -> Contents;
    /// The words of the records that the reference's `export` points to.
    fn export(&self) -> Vec<u64>;
    fn perform_u4(&mut self, qubit: u64, gate: &Gate) -> Result<(), Stopped>;
    /// The bit patterns of the sums for the outcomes 0 and 1.
    fn premeasure(&mut self, qubit: u64) -> Result<[u64; 2], Stopped>;
    /// `scale` is a bit pattern.
    fn measure(&mut self, qubit: u64, outcome: bool, scale: u64) -> Result<(), Stopped>;
    /// The bit patterns of re and im at a key, if it is there.
    fn lookup(&self, key: &[u64]) -> Result<Option<[u64; 2]>, Stopped>;
    fn collapse_delta(&self, qubit: u64, gate: &Gate, i: u64) -> Result<i64, Stopped>;
    /// Each amplitude is the bit patterns of re and im.
    fn import_dense(&mut self, amplitudes: &[[u64; 2]]) -> Result<(), Stopped>;
}

/// Whether the reference was built.
pub const BUILT: bool = cfg!(qblaze);

/// What to say where the reference was not built.
pub const NOT_BUILT: &str = "THE DIFFERENTIAL WAS NOT RUN: qblaze's sources were not found. \
    Set QBLAZE_SRC to a folder that has its src/statevector.rs, and build again.";

/// A fresh state of the reference. None where it was not built or does not have the width.
#[cfg(qblaze)]
pub fn machine(width: u64) -> Option<Box<dyn Machine>> {
    statevector::access::machine(width)
}

/// A fresh state of the reference. None where it was not built or does not have the width.
#[cfg(not(qblaze))]
pub fn machine(_width: u64) -> Option<Box<dyn Machine>> {
    None
}

/// The width of the state that the reference itself chooses for a largest qubit below 3,968. None
/// where it was not built.
#[cfg(qblaze)]
pub fn width_for(qubit: u64) -> Option<u64> {
    Some(statevector::access::width_for(qubit))
}

/// The width of the state that the reference itself chooses for a largest qubit below 3,968. None
/// where it was not built.
#[cfg(not(qblaze))]
pub fn width_for(_qubit: u64) -> Option<u64> {
    None
}

/// Pairs of keys of one width, as the reference has them.
pub trait KeyPairs {
    /// The reference's order of each pair's first key to its second, −1, 0 or 1, added up. The bit
    /// of a qubit that is left out is cleared in copies of both.
    fn orders(&self, left_out: Option<u64>) -> i64;
}

/// Keys of `width` words, one after the other, in pairs. None where the reference was not built or
/// does not have the width.
#[cfg(qblaze)]
pub fn key_pairs(width: u64, words: &[u64]) -> Option<Box<dyn KeyPairs>> {
    bitset::access::key_pairs(width, words)
}

/// Keys of `width` words, one after the other, in pairs. None where the reference was not built or
/// does not have the width.
#[cfg(not(qblaze))]
pub fn key_pairs(_width: u64, _words: &[u64]) -> Option<Box<dyn KeyPairs>> {
    None
}

/// What a gate makes of the amplitudes at a key with the bit clear and at the one with it set, kept
/// or not, by the reference's own operations. Where one of them is absent there is no product of
/// it. Empty where the reference was not built.
#[cfg(qblaze)]
pub fn gate_sums(gate: &Gate, clear: Option<[u64; 2]>, set: Option<[u64; 2]>) -> Vec<[u64; 2]> {
    u4::access::sums(gate, clear, set)
}

/// What a gate makes of the amplitudes at a key with the bit clear and at the one with it set, kept
/// or not, by the reference's own operations. Where one of them is absent there is no product of
/// it. Empty where the reference was not built.
#[cfg(not(qblaze))]
pub fn gate_sums(_: &Gate, _: Option<[u64; 2]>, _: Option<[u64; 2]>) -> Vec<[u64; 2]> {
    vec![]
}

/// Runs `run` while no buffer of the reference can have more than `bytes` bytes.
pub fn with_memory_limit<R>(bytes: usize, run: impl FnOnce() -> R) -> R {
    /// Puts a limit back, after a panic too.
    struct Limited(usize);
    impl Drop for Limited {
        fn drop(&mut self) {
            set_limit(self.0);
        }
    }
    let _limited = Limited(set_limit(bytes));
    run()
}

#[cfg(qblaze)]
fn set_limit(bytes: usize) -> usize {
    buffer::access::limit(bytes)
}

#[cfg(not(qblaze))]
fn set_limit(bytes: usize) -> usize {
    bytes
}

thread_local! {
    /// Whether a panic of this thread is one of the reference, which is reported as [`Stopped`] and
    /// not printed.
    static CALLING: Cell<bool> = const { Cell::new(false) };
}

/// What a call of the reference gives, or its panic.
#[cfg_attr(not(qblaze), allow(dead_code))]
fn caught<R>(call: impl FnOnce() -> R) -> Result<R, Stopped> {
    static HOOK: Once = Once::new();
    HOOK.call_once(|| {
        let print = panic::take_hook();
        panic::set_hook(Box::new(move |info| {
            if !CALLING.get() {
                print(info);
            }
        }));
    });
    CALLING.set(true);
    let result = panic::catch_unwind(AssertUnwindSafe(call));
    CALLING.set(false);
    result.map_err(|payload| Stopped(message(&*payload)))
}

#[cfg_attr(not(qblaze), allow(dead_code))]
fn message(payload: &(dyn Any + Send)) -> String {
    if let Some(text) = payload.downcast_ref::<&str>() {
        (*text).to_string()
    } else if let Some(text) = payload.downcast_ref::<String>() {
        text.clone()
    } else {
        "a panic without a message".to_string()
    }
}
