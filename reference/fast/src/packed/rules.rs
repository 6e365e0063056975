//! What is asked of a node that its kind and operation alone decide, made from the plain rules.

use numbers::{BOUND, CALL, PARAMETER, PRIMITIVE};

use super::above::Above;
use crate::rules::{self as plain, PRIMITIVES};

#[derive(Clone, Copy)]
pub struct Rule {
    /// Which bits of kind, extra, word and first have to be zero in a node that is not refused.
    pub zero: u64,
    /// What its first child has from it. A call's arguments are added.
    pub below: u64,
    /// What it has besides, if this one is in tail position.
    pub below_tail: u64,
    /// Which bits of kind, extra and word ask for a parameter (the lowest 16) or a callee.
    pub asked: u32,
    /// One for a bound, at `BOUNDS_AT`.
    pub bounds: u32,
}

/// Above the sum of all names of nodes that a table can have.
pub const BOUNDS_AT: u32 = 20;

/// By the three low bits of kind and the five of extra. Where others are set, every rule refuses.
pub fn rule(whole: u64) -> &'static Rule {
    &RULES[((whole << 5 | whole) as usize & 0x1fe0) >> 5]
}

/// One of these bits comes up in the sum of what is asked and the room for it, if that is too much.
pub const NO_ROOM: u32 = 1 << 14 | 1 << 23;

/// The room in a function: for parameters below its count, and for callees up to its own number.
pub fn room_of(function: usize, parameters: u8) -> u32 {
    // A parameter asks with its kind too, so that where there is no room for one there still is for nothing.
    ((127 - function as u32) << 16) + ((64 - u32::from(parameters)) << 8) - u32::from(PARAMETER)
}

/// What the callee adds to `NO_CALLEE`.
pub fn arguments_of(parameters: u8) -> u64 {
    Above::counts(parameters.into(), parameters.into()).wrapping_sub(NO_CALLEE)
}

/// The counts below a call of nothing: more children than there can be.
const NO_CALLEE: u64 = Above::counts(600, 0);

static RULES: [Rule; 256] = {
    // The bits of extra and kind that no rule is found by.
    const HIGH: u64 = 0xe0f8;
    const INDEX: u32 = 0x1f07;
    const CALLEE: u64 = 0x3f << 16;
    const HIGH_CALLEE: u64 = (0xffff_ffff << 16) ^ CALLEE;
    let mut rules = [Rule { zero: 0, below: 0, below_tail: 0, asked: 0, bounds: 0 }; 256];
    let mut at = 0;
    while at < 256 {
        let (kind, extra) = (at as u8 % 8, at as u8 / 8);
        let plain = &plain::RULES[if kind == PRIMITIVE { PRIMITIVES as usize + extra as usize } else { kind as usize }];
        let below = Above::below(kind, plain.fewest as u64, plain.most as u64);
        let below_tail = Above::below_tail(kind);
        let rule = Rule { zero: plain.zero | HIGH, below, below_tail, asked: 0, bounds: 0 };
        rules[at] = match kind {
            PARAMETER => Rule { asked: INDEX, ..rule },
            CALL => Rule { zero: rule.zero | HIGH_CALLEE, below: NO_CALLEE, asked: CALLEE as u32, ..rule },
            BOUND => Rule { bounds: 1 << BOUNDS_AT, ..rule },
            _ => rule,
        };
        at += 1;
    }
    rules
};
