//! The word of a node.

use std::hint::select_unpredictable as select;

use numbers::{IF, LET};

/// What a node has from its holder, zeros while nobody has named it. It goes from a node to its first child, and from a
/// child to the next. From the lowest bit: the holder, 0 for a root (10 bits), the innermost let in whose body the
/// holder is (10), whether the holder is a let (1), whether the last sibling is in tail position (1), three counts of
/// siblings, each below the bit that it is for, and the function (6).
#[derive(Clone, Copy)]
pub struct Above(pub u64);

const HOLDER: u64 = 0x3ff;
const SCOPE_AT: u32 = 10;
const SCOPE: u64 = 0x3ff << SCOPE_AT;
const IN_LET: u64 = 1 << 20;
const TAIL_LAST: u64 = 1 << 21;
/// In tail position wherever it is among its siblings; after more than 9 of them it says nothing.
const TAIL: u64 = 1 << 26;
/// One sibling before that.
const TAIL_AFTER: u64 = TAIL - (1 << 22);
pub const TOO_MANY: u64 = 1 << 46;
pub const TOO_FEW: u64 = 1 << 57;
const OWNER_AT: u32 = 58;
pub const OWNER: u64 = 0x3f << OWNER_AT;
/// One more sibling; the last count goes down.
const ONE: u64 = (1u64 << 22 | 1 << 36).wrapping_sub(1 << 47);

impl Above {
    pub const NONE: Above = Above(0);

    pub const fn root(function: usize) -> Above {
        Above((function as u64) << OWNER_AT | TAIL | Above::counts(1, 1))
    }

    /// The counts before the first child, where there may be so many.
    pub const fn counts(fewest: u64, most: u64) -> u64 {
        (TOO_MANY - ((most + 1) << 36)) + (TOO_FEW + (fewest << 47) - (1 << 47))
    }

    /// What the first child has from a node's kind.
    pub const fn below(kind: u8, fewest: u64, most: u64) -> u64 {
        Above::counts(fewest, most) | if kind == LET { IN_LET } else { 0 }
    }

    /// What it has besides, if the node is in tail position.
    pub const fn below_tail(kind: u8) -> u64 {
        match kind {
            IF => TAIL_AFTER,
            LET => TAIL_LAST,
            _ => 0,
        }
    }

    pub fn next(self) -> Above {
        Above(self.0.wrapping_add(ONE))
    }

    pub fn in_tail(self, is_last: bool) -> bool {
        self.0 & select(is_last, TAIL | TAIL_LAST, TAIL) != 0
    }

    /// The innermost let in whose body the node is, where its children have it.
    pub fn inner(self, is_last: bool) -> u64 {
        select(self.0 & select(is_last, IN_LET, 0) != 0, self.0 << SCOPE_AT, self.0) & SCOPE
    }

    /// The same as a number, 0 for none.
    pub fn scope(self, is_last: bool) -> usize {
        (self.inner(is_last) >> SCOPE_AT) as usize
    }

    pub fn is_in_let(self) -> bool {
        self.0 & IN_LET != 0
    }

    pub fn owner(self) -> usize {
        (self.0 >> OWNER_AT) as usize
    }

    /// The holder, 0 for a root.
    pub fn holder(self) -> usize {
        (self.0 & HOLDER) as usize
    }
}
