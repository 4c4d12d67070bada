//! Where the reference is known not to do what the specification says (13), each as a predicate on
//! the call and what the state holds before it. The tests `known` show each at its smallest input.
//!
//! The refusals are differences too: the reference asserts, stops or goes on. They are no
//! predicates here, since [`crate::compare::as_reference`] never asks the reference to do what has
//! to be refused.
use butrask_calls::Call;
use butrask_reference::Contents;

/// Where no entry is there, or a measurement by the tag leaves none, the reference can stop at a
/// chunk size of 0; the port gives sums 0 and 0, and an empty state with its tag.
///
/// - Sums of an empty state.
/// - Measuring an empty state by another qubit than the tag, whatever the scale.
/// - A measurement by the tag that leaves no entry and then divides.
pub fn stops_at_chunk_of_zero(call: &Call, before: &Contents) -> bool {
    let [n0, n1] = [before.parts[0].len(), before.parts[1].len()];
    match *call {
        Call::Premeasure { .. } => n0 + n1 == 0,
        Call::Measure {
            qubit,
            outcome,
            scale,
        } if before.tag == Some(qubit) => {
            let left = if outcome { n1 } else { n0 };
            left == 0 && !is_near_one(f64::from_bits(scale))
        }
        Call::Measure { .. } => n0 + n1 == 0,
        _ => false,
    }
}

fn is_near_one(scale: f64) -> bool {
    (scale - 1.0).abs() < 0.5f64.powi(40)
}
