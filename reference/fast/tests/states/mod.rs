//! The reference's state as the fast baseline has it.

use design::circuit;
use fast::State;

pub fn to_fast(state: &circuit::State) -> State {
    State {
        status: std::array::from_fn(|i| state.nodes[i].status),
        second: std::array::from_fn(|i| state.nodes[i].second),
        value: std::array::from_fn(|i| state.nodes[i].value),
        registers: std::array::from_fn(|i| state.functions[i].registers),
        occupant: std::array::from_fn(|i| state.functions[i].occupant.0),
    }
}
