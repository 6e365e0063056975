//! A circuit's state.

use numbers::{DONE, MOST_FUNCTIONS, MOST_NODES};

/// The state, node n and function f at n - 1 and f - 1.
#[derive(Clone, PartialEq, Eq, Debug)]
pub struct State {
    /// 0 idle, 1 open, 2 busy, 3 done.
    pub status: [u8; MOST_NODES],
    /// Whether a node is in second phase.
    pub second: [bool; MOST_NODES],
    /// The value of a node.
    pub value: [u32; MOST_NODES],
    /// The arguments that a function was entered with.
    pub registers: [[u32; 8]; MOST_FUNCTIONS],
    /// The call that has entered a function, 0 if it is free.
    pub occupant: [u16; MOST_FUNCTIONS],
}

impl State {
    /// All zero.
    pub fn zero() -> State {
        State {
            status: [0; MOST_NODES],
            second: [false; MOST_NODES],
            value: [0; MOST_NODES],
            registers: [[0; 8]; MOST_FUNCTIONS],
            occupant: [0; MOST_FUNCTIONS],
        }
    }

    /// Its arrays, to be handed on.
    pub fn lend(&mut self) -> Lent<'_> {
        Lent {
            status: &mut self.status,
            second: &mut self.second,
            value: &mut self.value,
            registers: self.registers.as_flattened_mut().try_into().expect("eight of each function"),
            occupant: &mut self.occupant,
        }
    }

    pub(crate) fn is_done(&self, node: usize) -> bool {
        self.status[node - 1] == DONE
    }

    pub(crate) fn finish(&mut self, node: usize, value: u32) {
        self.status[node - 1] = DONE;
        self.second[node - 1] = false;
        self.value[node - 1] = value;
    }

    /// False if 24 applies. A status is in order if it has no bit but the lowest two.
    pub(crate) fn is_in_order(&self, nodes: usize, functions: usize) -> bool {
        let bits = self.status[..nodes].iter().fold(0, |bits, status| bits | status);
        let last = self.occupant[..functions].iter().fold(0, |last, node| *node.max(&last));
        bits <= DONE && usize::from(last) <= nodes
    }
}

/// A state as a caller lends it: its five arrays, the registers of function f from 8 (f - 1).
pub struct Lent<'a> {
    /// As in `State`, and so are the others.
    pub status: &'a mut [u8; MOST_NODES],
    /// Second phase.
    pub second: &'a mut [bool; MOST_NODES],
    /// Values.
    pub value: &'a mut [u32; MOST_NODES],
    /// Registers of all functions.
    pub registers: &'a mut [u32; 8 * MOST_FUNCTIONS],
    /// Occupants.
    pub occupant: &'a mut [u16; MOST_FUNCTIONS],
}

impl Lent<'_> {
    pub(crate) fn get(&self) -> State {
        let mut registers = [[0; 8]; MOST_FUNCTIONS];
        registers.as_flattened_mut().copy_from_slice(self.registers);
        State { status: *self.status, second: *self.second, value: *self.value, registers, occupant: *self.occupant }
    }

    pub(crate) fn put(&mut self, state: &State) {
        *self.status = state.status;
        *self.second = state.second;
        *self.value = state.value;
        self.registers.copy_from_slice(state.registers.as_flattened());
        *self.occupant = state.occupant;
    }
}
