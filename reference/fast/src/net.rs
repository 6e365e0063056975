//! A design laid out for running: a cell has what a step needs of its node, which is at its number less 1.

use numbers::{BOUND, CALL, IF, LET, MOST_FUNCTIONS, MOST_NODES, PARAMETER};

use crate::check::Survey;
use crate::{first, next, spare, word, Parts};

/// No cell.
pub const NONE: u16 = u16::MAX;

/// A self call has a kind of its own.
pub const SELF_CALL: u8 = 0;

/// Brings the number of a cell into its range, which it is in anyway, so that it needs no test.
pub const fn cell(number: u16) -> usize {
    number as usize % MOST_NODES
}

#[derive(Clone, Copy)]
pub struct Cell {
    /// The value of a constant, the register of a parameter, the cell of a definiens, the callee from 0.
    pub word: u32,
    /// The first child and the last, none if there are none.
    pub first: u16,
    pub last: u16,
    pub next: u16,
    /// None for a root.
    pub holder: u16,
    pub kind: u8,
    pub operation: u8,
    /// The node's function, from 0.
    pub owner: u8,
    /// The bits that this function lacks.
    pub spare: u8,
    /// The children that it opens when it begins: all but the branches of an if and the body of a let.
    pub opens: u8,
    /// Whether it is such a branch or body.
    pub is_last_part: bool,
}

impl Cell {
    /// What the node's function keeps of a value.
    pub fn keep(&self, value: u32) -> u32 {
        value & u32::MAX >> (self.spare % 32)
    }
}

const EMPTY: Cell = Cell {
    word: 0,
    first: 0,
    last: 0,
    next: 0,
    holder: 0,
    kind: 0,
    operation: 0,
    owner: 0,
    spare: 0,
    opens: 0,
    is_last_part: false,
};

pub struct Net {
    pub cells: [Cell; MOST_NODES],
    /// By function from 0; its nodes are in `members` from `begin` on, up to the next function's.
    pub roots: [u16; MOST_FUNCTIONS],
    pub begin: [u16; MOST_FUNCTIONS + 1],
    pub members: [u16; MOST_NODES],
    pub nodes: usize,
    pub main: usize,
}

impl Net {
    pub fn empty() -> Net {
        Net {
            cells: [EMPTY; MOST_NODES],
            roots: [0; MOST_FUNCTIONS],
            begin: [0; MOST_FUNCTIONS + 1],
            members: [0; MOST_NODES],
            nodes: 0,
            main: 0,
        }
    }

    /// Lays out an accepted table where nothing is yet.
    pub fn fill(&mut self, parts: &Parts, known: &Survey) {
        let (nodes, functions) = (parts.nodes(), parts.functions());
        (self.nodes, self.main) = (nodes, functions - 1);
        // Number 0, which stands for none, becomes no cell.
        let at = |number: usize| (number as u16).wrapping_sub(1);
        for (root, function) in self.roots.iter_mut().zip(1..=functions) {
            *root = at(parts.root(function));
        }
        for (record, node) in parts.records.iter().zip(1..) {
            let above = known.above[node];
            let (kind, word, owner) = (record[0], word(record), above.owner() - 1);
            // Its last child and what it opens are found when those come, which is later.
            self.cells[node - 1] = Cell {
                word: match kind {
                    PARAMETER => u32::from(owner) * 8 + u32::from(record[1]),
                    BOUND | CALL => word - 1,
                    _ => word,
                },
                first: at(first(record)),
                next: at(next(record)),
                holder: at(above.holder()),
                kind: if kind == CALL && word - 1 == owner.into() { SELF_CALL } else { kind },
                operation: record[1],
                owner,
                spare: spare(parts.heads[usize::from(owner)][1]),
                last: NONE,
                ..EMPTY
            };
            if above.holder() != 0 {
                self.hang(node - 1, above.holder() - 1);
            }
            self.begin[usize::from(owner) + 1] += 1;
        }
        for function in 0..MOST_FUNCTIONS {
            self.begin[function + 1] += self.begin[function];
        }
        let mut free = self.begin;
        for node in 0..nodes {
            let free = &mut free[usize::from(self.cells[node].owner)];
            self.members[cell(*free)] = node as u16;
            *free += 1;
        }
    }

    /// Tells a holder of a child, which comes after those before it.
    fn hang(&mut self, child: usize, holder: usize) {
        let Cell { kind, first, .. } = self.cells[holder];
        let is_last = self.cells[child].next == NONE;
        let is_last_part = kind == IF && cell(first) != child || kind == LET && is_last;
        self.cells[child].is_last_part = is_last_part;
        self.cells[holder].last = child as u16;
        self.cells[holder].opens += u8::from(!is_last_part);
    }
}
