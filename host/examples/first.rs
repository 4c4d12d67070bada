//! A qubit in superposition, and the sums of squares for its outcomes.
use butrask_host::calls::{Gate, Refusal, Stores};

fn main() -> Result<(), Refusal> {
    let mut stores = Stores::with_records(1, 4); // two stores with room for four records of width 1
    let mut state = stores.fresh(1)?;
    stores.perform_u4(&mut state, 0, &Gate::real(1.0, 1.0, -1.0, 1.0))?;
    let [zero, one] = stores.premeasure(&state, 0)?;
    println!("sizes {} {}, sums {zero} {one}", state.n0, state.n1);
    Ok(())
}
