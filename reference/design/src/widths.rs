//! Random widths of functions, and constants that fit them.

use numbers::{CONSTANT, MOST_WIDTH};

use crate::draft::Draft;
use crate::random::Random;
use crate::table::{bits, narrow};

/// The width bytes of a design's functions: none of them set in some designs, all alike in others.
pub fn widths(random: &mut Random, functions: usize) -> Vec<u8> {
    let one = width_byte(random);
    match random.below(8) {
        0 => vec![0; functions],
        1 => vec![one; functions],
        _ => (0..functions).map(|_| width_byte(random)).collect(),
    }
}

/// Few bits are frequent, and so are the bytes next to the ends.
fn width_byte(random: &mut Random) -> u8 {
    match random.below(8) {
        0 => 0,
        1 => random.pick(&[30, 31, 31, 32, 32]),
        2..=5 => random.within(1, 4) as u8,
        6 => random.pick(&[5, 7, 8, 9, 15, 16, 17, 24]),
        _ => random.within(1, MOST_WIDTH.into()) as u8,
    }
}

/// A constant for a function with this width byte, often the largest that fits.
pub fn constant(random: &mut Random, byte: u8) -> u32 {
    match bits(byte) {
        MOST_WIDTH => random.word(),
        width if random.once_in(4) => narrow(width, u32::MAX),
        width => narrow(width, random.word()),
    }
}

/// Gives the functions of a draft widths that have room for the constants they hold already.
pub fn give(random: &mut Random, draft: &mut Draft) {
    let widths = widths(random, draft.functions.len());
    for (index, byte) in widths.into_iter().enumerate() {
        let largest = largest(draft, draft.functions[index].root);
        let needed = (u32::BITS - largest.leading_zeros()) as u8;
        draft.functions[index].width = if bits(byte) < needed { needed } else { byte };
    }
}

/// The largest constant at a node and below it, or 0.
fn largest(draft: &Draft, node: usize) -> u32 {
    let item = &draft.items[node];
    let own = if item.kind == CONSTANT { item.word } else { 0 };
    item.children.iter().map(|child| largest(draft, *child)).fold(own, u32::max)
}
