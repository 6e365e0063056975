//! The C functions of the proved circuit. Lengths are in elements.

use numbers::{MOST_FUNCTIONS, MOST_NODES};

use crate::lent::{Arrays, Lent, REGISTERS};

/// What each of them is handed before its own: table, tags and the five arrays of the state.
pub struct Handed<'a> {
    pub table: &'a [u8],
    pub tags: &'a [u8],
    pub state: &'a mut Lent,
}

/// Declares functions by what they take of their own, and makes each a method of what it is handed first.
macro_rules! functions {
    ($($name:ident($($own:ident: $type:ty),*);)*) => {
        extern "C" {
            $(fn $name(
                table: *const u8,
                table_len: usize,
                tags: *const u8,
                tags_len: usize,
                status: *mut [u8; MOST_NODES],
                second: *mut [bool; MOST_NODES],
                value: *mut [u32; MOST_NODES],
                registers: *mut [u32; REGISTERS],
                occupant: *mut [u16; MOST_FUNCTIONS],
                $($own: $type),*
            ) -> u64;)*
        }

        impl Handed<'_> {
            $(pub unsafe fn $name(self, $($own: $type),*) -> u64 {
                let Handed { table, tags, state } = self;
                let Arrays { status, second, value, registers, occupant } = state.arrays();
                $name(
                    table.as_ptr(),
                    table.len(),
                    tags.as_ptr(),
                    tags.len(),
                    status,
                    second,
                    value,
                    registers,
                    occupant,
                    $($own),*
                )
            })*
        }
    };
}

functions! {
    circuit_start(arguments: *const u32, arguments_len: usize);
    circuit_step(node: u16);
    circuit_run(nodes: *const u16, nodes_len: usize, count: *mut usize);
    circuit_drive(budget: u32, count: *mut u32);
    // It only reads the arrays.
    circuit_query();
}
