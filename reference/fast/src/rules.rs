//! What is asked of a node that its kind and operation alone decide.

use std::hint::select_unpredictable as select;

use numbers::{BESIDE, DOUBLE, LOW_BIT};
use numbers::{BOUND, CALL, CONSTANT, IF, LET, PARAMETER, PRIMITIVE};

use crate::check::Above;

#[derive(Clone, Copy)]
pub(crate) struct Rule {
    /// Which of the bytes of kind, extra, word and first have to be zero.
    pub zero: u64,
    /// Which of them have to be zero besides if the function has no room for them: the word of a constant.
    pub room: u64,
    /// The place of its first child.
    pub below: u32,
    /// Fewest and most children; a call has the number of its callee, which is looked at apart.
    pub fewest: u32,
    pub most: u32,
}

pub(crate) fn rule(kind: u8, extra: u8) -> &'static Rule {
    &RULES[usize::from(select(kind == PRIMITIVE, PRIMITIVES + u16::from(extra), kind.into()))]
}

/// The first eight bytes of a record: kind, extra, word and first.
pub(crate) fn whole(record: &[u8; 10]) -> u64 {
    u64::from_le_bytes(record[..8].try_into().expect("eight bytes"))
}

/// Where the rules of primitives begin.
pub(crate) const PRIMITIVES: u16 = 256;

/// By kind, and for primitives by operation. A kind or operation that doesn't exist is itself what isn't zero;
/// kind 0 lacks a child.
pub(crate) static RULES: [Rule; 512] = {
    const EXTRA: u64 = 0xff << 8;
    const WORD: u64 = 0xffff_ffff << 16;
    const FIRST: u64 = 0xffff << 48;
    const fn rule(kind: u8, zero: u64, fewest: u8, most: u8) -> Rule {
        let room = if kind == CONSTANT { WORD } else { 0 };
        Rule { zero, room, below: Above::below(kind, fewest, most), fewest: fewest as u32, most: most as u32 }
    }
    let mut rules = [rule(0, u64::MAX, 1, 1); 512];
    rules[CONSTANT as usize] = rule(CONSTANT, EXTRA | FIRST, 0, 0);
    rules[PARAMETER as usize] = rule(PARAMETER, WORD | FIRST, 0, 0);
    rules[CALL as usize] = rule(CALL, EXTRA, 0, 0);
    rules[IF as usize] = rule(IF, EXTRA | WORD, 3, 3);
    rules[LET as usize] = rule(LET, EXTRA | WORD, 2, 9);
    rules[BOUND as usize] = rule(BOUND, EXTRA | FIRST, 0, 0);
    let mut operation = 0;
    while operation < BESIDE {
        let count = if operation >= DOUBLE && operation <= LOW_BIT { 1 } else { 2 };
        rules[PRIMITIVES as usize + operation as usize] = rule(PRIMITIVE, WORD, count, count);
        operation += 1;
    }
    rules[PRIMITIVES as usize + BESIDE as usize] = rule(PRIMITIVE, WORD, 1, 8);
    rules
};
