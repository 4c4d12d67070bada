// Stands in for the root of qblaze's crate: its modules, the names that they expect at the root,
// its configuration and its macro for timing. `lib.rs` includes this file, so that `crate::` in the
// copies means the root of this crate.

/// Runs the block. The original times it too.
macro_rules! perf {
    ($context:ident[$($figure:expr),* $(,)?] $block:block) => {
        $block
    };
}

#[allow(warnings, clippy::all)]
mod angle;
#[allow(warnings, clippy::all)]
mod arena;
#[allow(warnings, clippy::all)]
mod bitset;
#[allow(warnings, clippy::all)]
mod buffer;
#[allow(warnings, clippy::all)]
mod complex;
#[allow(warnings, clippy::all)]
mod context;
#[allow(warnings, clippy::all)]
mod qubit;
#[allow(warnings, clippy::all)]
mod qubit_set;
#[allow(warnings, clippy::all)]
mod sfree;
#[allow(warnings, clippy::all)]
mod shamelessly_stolen_from_libstd;
#[allow(warnings, clippy::all)]
mod statevector;
#[allow(warnings, clippy::all)]
mod threading;
#[allow(warnings, clippy::all)]
mod u3;
#[allow(warnings, clippy::all)]
mod u4;
#[allow(warnings, clippy::all)]
mod util;

use angle::Angle;
use complex::Complex;
use context::Context;
use qubit::{Control, ControlItem, Qubit};
use qubit_set::QubitSet;
use u3::U3;
use u4::U4;

/// The settings that a context is made from.
struct Config {
    max_qubit: Qubit,
    threads: usize,
    chunk_size: usize,
    multithreading_threshold: usize,
    work_item_min_size: usize,
    work_item_max_size: usize,
    perf_enabled: bool,
}

impl Config {
    /// One thread, and a threshold that no state reaches, so that every call works in one chunk.
    const ONE_CHUNK: Config = Config {
        max_qubit: Qubit::ZERO,
        threads: 1,
        chunk_size: usize::MAX,
        multithreading_threshold: usize::MAX,
        work_item_min_size: usize::MAX,
        work_item_max_size: usize::MAX,
        perf_enabled: false,
    };
}
