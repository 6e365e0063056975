//! A circuit's state as it is lent to the proved code: five arrays, each between guards.

use std::fmt::Debug;

use design::circuit::State;
use design::difference::{ensure, Outcome};
use design::Node;
use numbers::{MOST_FUNCTIONS, MOST_NODES, MOST_PARAMETERS};

pub const REGISTERS: usize = MOST_PARAMETERS * MOST_FUNCTIONS;

/// Entries before and after each array that nobody may touch.
const GUARD: usize = 16;

const NODES_GUARDED: usize = GUARD + MOST_NODES + GUARD;
const REGISTERS_GUARDED: usize = GUARD + REGISTERS + GUARD;
const FUNCTIONS_GUARDED: usize = GUARD + MOST_FUNCTIONS + GUARD;

/// An array with its guards around it.
#[derive(Clone, PartialEq, Eq)]
struct Guarded<T, const ALL: usize>([T; ALL]);

impl<T: Copy + PartialEq + Debug, const ALL: usize> Guarded<T, ALL> {
    fn new(guard: T, entry: T) -> Self {
        let mut all = [guard; ALL];
        all[GUARD..ALL - GUARD].fill(entry);
        Guarded(all)
    }

    fn entries(&self) -> &[T] {
        &self.0[GUARD..ALL - GUARD]
    }

    fn entries_mut(&mut self) -> &mut [T] {
        &mut self.0[GUARD..ALL - GUARD]
    }

    /// Taken of the whole, so that what is written astray is still within it and can be seen.
    fn pointer(&mut self) -> *mut T {
        self.0.as_mut_ptr().wrapping_add(GUARD)
    }

    /// Tells the first entry or guard that isn't as in the other.
    fn same_as(&self, wanted: &Self, name: impl Fn(usize) -> String) -> Outcome {
        let Some(at) = (0..ALL).find(|at| self.0[*at] != wanted.0[*at]) else {
            return Ok(());
        };
        let length = ALL - 2 * GUARD;
        let what = match at.checked_sub(GUARD) {
            None => format!("guard {} before {}", GUARD - at, name(0)),
            Some(index) if index < length => name(index),
            Some(index) => format!("guard {} after {}", index + 1 - length, name(length - 1)),
        };
        Err(format!("{what} is {:?}, wanted {:?}", self.0[at], wanted.0[at]))
    }
}

/// The lent state. The flags are kept as bytes: the proved code might leave one that is no flag.
#[derive(Clone, PartialEq, Eq)]
pub struct Lent {
    status: Guarded<u8, NODES_GUARDED>,
    second: Guarded<u8, NODES_GUARDED>,
    value: Guarded<u32, NODES_GUARDED>,
    registers: Guarded<u32, REGISTERS_GUARDED>,
    occupant: Guarded<u16, FUNCTIONS_GUARDED>,
}

/// The five arrays as the C functions take them.
pub(crate) struct Arrays {
    pub status: *mut [u8; MOST_NODES],
    pub second: *mut [bool; MOST_NODES],
    pub value: *mut [u32; MOST_NODES],
    pub registers: *mut [u32; REGISTERS],
    pub occupant: *mut [u16; MOST_FUNCTIONS],
}

impl Lent {
    pub fn zero() -> Lent {
        Lent {
            status: Guarded::new(0xc3, 0),
            second: Guarded::new(0xc3, 0),
            value: Guarded::new(0xc3c3_c3c3, 0),
            registers: Guarded::new(0xc3c3_c3c3, 0),
            occupant: Guarded::new(0xc3c3, 0),
        }
    }

    pub fn of(state: &State) -> Lent {
        let mut lent = Lent::zero();
        for (i, node) in state.nodes.iter().enumerate() {
            lent.status.entries_mut()[i] = node.status;
            lent.second.entries_mut()[i] = node.second.into();
            lent.value.entries_mut()[i] = node.value;
        }
        for (i, function) in state.functions.iter().enumerate() {
            lent.registers.entries_mut()[8 * i..8 * i + 8].copy_from_slice(&function.registers);
            lent.occupant.entries_mut()[i] = function.occupant.0;
        }
        lent
    }

    pub(crate) fn arrays(&mut self) -> Arrays {
        Arrays {
            status: self.status.pointer().cast(),
            second: self.second.pointer().cast(),
            value: self.value.pointer().cast(),
            registers: self.registers.pointer().cast(),
            occupant: self.occupant.pointer().cast(),
        }
    }

    /// Back as a state; a flag that is neither 0 nor 1 is told.
    pub fn state(&self) -> Result<State, String> {
        let mut state = State::zero();
        for (i, node) in state.nodes.iter_mut().enumerate() {
            let flag = self.second.entries()[i];
            ensure(flag < 2, || format!("flag {flag} at node {}", i + 1))?;
            node.status = self.status.entries()[i];
            node.second = flag == 1;
            node.value = self.value.entries()[i];
        }
        for (i, function) in state.functions.iter_mut().enumerate() {
            function.registers = std::array::from_fn(|j| self.registers.entries()[8 * i + j]);
            function.occupant = Node(self.occupant.entries()[i]);
        }
        Ok(state)
    }

    /// Tells the first entry, up to N and F or past them, or guard that isn't as in the other state.
    pub fn same_as(&self, wanted: &State) -> Outcome {
        let wanted = Lent::of(wanted);
        self.status.same_as(&wanted.status, |i| format!("status of node {}", i + 1))?;
        self.second.same_as(&wanted.second, |i| format!("flag of node {}", i + 1))?;
        self.value.same_as(&wanted.value, |i| format!("value of node {}", i + 1))?;
        let register = |i: usize| format!("register {} of function {}", i % 8, i / 8 + 1);
        self.registers.same_as(&wanted.registers, register)?;
        self.occupant.same_as(&wanted.occupant, |i| format!("occupant of function {}", i + 1))
    }
}
