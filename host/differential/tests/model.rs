//! The worked cases of the specification, the known differences and large states on the model and
//! on the reference.
mod edges;
mod known;
mod large;

use butrask_calls::Calls;
use butrask_differential::Case;
use butrask_model::Model;

/// The libraries that the modules take their calls through.
fn libraries() -> Vec<Box<dyn Calls>> {
    vec![Box::new(Model)]
}

/// Those of them that have room for a case.
fn libraries_for(_: &Case) -> Vec<Box<dyn Calls>> {
    libraries()
}
