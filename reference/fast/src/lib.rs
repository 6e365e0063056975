//! The plain fast baseline: the same answers as the reference, in arrays of fixed size and without allocation.

mod check;
mod list;
mod near;
mod net;
mod nodes;
mod packed;
mod plain;
mod reach;
mod rules;
mod run;
mod scope;
mod sets;
mod sheet;
mod state;
mod step;
mod tags;

pub use check::check;
pub use list::list;
pub use packed::check_packed;
pub use run::{run, run_sized, run_sized_watched, run_watched, Ending};
pub use sets::list_by_sets;
pub use sheet::sheet;
pub use state::{Lent, State};
pub use step::{start, start_lent, step, step_lent};
pub use tags::check_tags;

use numbers::{ADD, AND, DOUBLE, EQUAL, HALVE, LESS, LOW_BIT, OR, SUBTRACT, XOR};

/// Number and place of a refusal in one number; 0 stands for no refusal.
pub(crate) const fn refusal(number: u32, place: u32) -> u32 {
    number << 16 | place
}

/// Functions, f at bit f - 1.
pub(crate) type Functions = u32;

/// The two parts of a table whose length fits its F and N.
#[derive(Clone, Copy)]
pub(crate) struct Parts<'a> {
    pub heads: &'a [[u8; 4]],
    pub records: &'a [[u8; 10]],
}

impl<'a> Parts<'a> {
    pub fn of(table: &'a [u8]) -> Parts<'a> {
        let (heads, records) = table[4..].split_at(4 * half(table, 0));
        Parts { heads: heads.as_chunks().0, records: records.as_chunks().0 }
    }

    pub fn functions(&self) -> usize {
        self.heads.len()
    }

    pub fn nodes(&self) -> usize {
        self.records.len()
    }

    pub fn parameters(&self, function: usize) -> usize {
        self.heads[function - 1][0].into()
    }

    /// The bits that a function keeps of a value.
    pub fn mask(&self, function: usize) -> u32 {
        u32::MAX >> spare(self.heads[function - 1][1])
    }

    pub fn root(&self, function: usize) -> usize {
        half(&self.heads[function - 1], 2)
    }

    pub fn record(&self, node: usize) -> &'a [u8; 10] {
        &self.records[node - 1]
    }
}

/// The bits that a function with this width byte lacks: none with 0, as with 32.
pub(crate) const fn spare(width: u8) -> u8 {
    width.wrapping_neg() % 32
}

/// The bits that no constant of such a function may have, where they are in the first eight bytes of its record.
pub(crate) const fn beyond(width: u8) -> u64 {
    (!(u32::MAX >> spare(width)) as u64) << 16
}

pub(crate) fn half(bytes: &[u8], at: usize) -> usize {
    u16::from_le_bytes([bytes[at], bytes[at + 1]]).into()
}

pub(crate) fn word(record: &[u8; 10]) -> u32 {
    u32::from_le_bytes([record[2], record[3], record[4], record[5]])
}

pub(crate) fn first(record: &[u8; 10]) -> usize {
    half(record, 6)
}

pub(crate) fn next(record: &[u8; 10]) -> usize {
    half(record, 8)
}

/// What a primitive makes of the values of its first and its last child.
pub(crate) fn compute(operation: u8, [a, b]: [u32; 2]) -> u32 {
    match operation {
        ADD => a.wrapping_add(b),
        SUBTRACT => a.wrapping_sub(b),
        AND => a & b,
        OR => a | b,
        XOR => a ^ b,
        DOUBLE => a << 1,
        HALVE => a >> 1,
        LOW_BIT => a & 1,
        EQUAL => u32::from(a == b),
        LESS => u32::from(a < b),
        _ => b,
    }
}
