//! The byte layout of a design table. Every reader answers for any bytes: what lies outside reads as 0.

use numbers::{ADD, AND, BESIDE, DOUBLE, EQUAL, HALVE, LESS, LOW_BIT, MOST_WIDTH, OR, SUBTRACT, XOR};

/// A node number, 1 to N in an accepted table; 0 stands for none.
#[derive(Clone, Copy, PartialEq, Eq, PartialOrd, Ord, Hash, Debug, Default)]
pub struct Node(pub u16);

/// A function number, 1 to F in an accepted table; main is F.
#[derive(Clone, Copy, PartialEq, Eq, PartialOrd, Ord, Hash, Debug)]
pub struct Function(pub u16);

/// Why something was turned back, and where; place 0 names no node.
#[derive(Clone, Copy, PartialEq, Eq, PartialOrd, Ord, Hash, Debug)]
pub struct Refusal {
    pub number: u16,
    pub place: Node,
}

impl Refusal {
    /// Both halves in one number, as the other implementations return it.
    pub fn code(self) -> u32 {
        u32::from(self.number) * 65536 + u32::from(self.place.0)
    }
}

// Offsets of the fields in a node record.
pub(crate) const KIND: usize = 0;
pub(crate) const EXTRA: usize = 1;
pub(crate) const WORD: usize = 2;
pub(crate) const FIRST: usize = 6;
pub(crate) const NEXT: usize = 8;

/// The fewest and the most children of an operation; 0 and 0 for a byte that is none. Check, assembler and generator
/// all go by this.
pub fn operation_counts(operation: u8) -> (u16, u16) {
    match operation {
        ADD | SUBTRACT | AND | OR | XOR | EQUAL | LESS => (2, 2),
        DOUBLE | HALVE | LOW_BIT => (1, 1),
        BESIDE => (1, 8),
        _ => (0, 0),
    }
}

/// What a primitive makes of its children's values.
pub fn compute(operation: u8, values: &[u32]) -> u32 {
    let value = |i: usize| values.get(i).copied().unwrap_or(0);
    match operation {
        ADD => value(0).wrapping_add(value(1)),
        SUBTRACT => value(0).wrapping_sub(value(1)),
        AND => value(0) & value(1),
        OR => value(0) | value(1),
        XOR => value(0) ^ value(1),
        DOUBLE => value(0).wrapping_mul(2),
        HALVE => value(0) / 2,
        LOW_BIT => value(0) & 1,
        EQUAL => u32::from(value(0) == value(1)),
        LESS => u32::from(value(0) < value(1)),
        _ => values.last().copied().unwrap_or(0),
    }
}

/// The bits that a width byte stands for; it is known to be no more than 32.
pub fn bits(byte: u8) -> u8 {
    match byte {
        0 => MOST_WIDTH,
        _ => byte,
    }
}

/// A value modulo 2^width.
pub fn narrow(width: u8, value: u32) -> u32 {
    (u64::from(value) % (1 << width)) as u32
}

/// A table as its bytes stand, checked or not.
#[derive(Clone, Copy)]
pub struct Table<'a> {
    pub bytes: &'a [u8],
}

impl<'a> Table<'a> {
    pub fn new(bytes: &'a [u8]) -> Self {
        Table { bytes }
    }

    fn number(&self, at: usize, bytes: usize) -> u32 {
        let byte = |i: usize| u32::from(self.bytes.get(at + i).copied().unwrap_or(0));
        (0..bytes).map(|i| byte(i) << (8 * i)).sum()
    }

    /// F as the table states it.
    pub fn function_count(&self) -> u16 {
        self.number(0, 2) as u16
    }

    /// N as the table states it.
    pub fn node_count(&self) -> u16 {
        self.number(2, 2) as u16
    }

    /// The length that F and N call for.
    pub fn wanted_length(&self) -> usize {
        4 + 4 * usize::from(self.function_count()) + 10 * usize::from(self.node_count())
    }

    pub fn functions(&self) -> impl Iterator<Item = Function> {
        (1..=self.function_count()).map(Function)
    }

    pub fn nodes(&self) -> impl Iterator<Item = Node> {
        (1..=self.node_count()).map(Node)
    }

    pub fn has_node(&self, number: u16) -> bool {
        (1..=self.node_count()).contains(&number)
    }

    fn function_field(&self, function: Function, offset: usize, bytes: usize) -> u32 {
        if function.0 < 1 || function.0 > self.function_count() {
            return 0;
        }
        self.number(4 + 4 * (usize::from(function.0) - 1) + offset, bytes)
    }

    fn node_field(&self, node: Node, offset: usize, bytes: usize) -> u32 {
        if !self.has_node(node.0) {
            return 0;
        }
        let records = 4 + 4 * usize::from(self.function_count());
        self.number(records + 10 * (usize::from(node.0) - 1) + offset, bytes)
    }

    pub fn parameter_count(&self, function: Function) -> u8 {
        self.function_field(function, 0, 1) as u8
    }

    pub fn width_byte(&self, function: Function) -> u8 {
        self.function_field(function, 1, 1) as u8
    }

    /// The bits of a function, as `bits` tells them.
    pub fn width(&self, function: Function) -> u8 {
        bits(self.width_byte(function))
    }

    pub fn root(&self, function: Function) -> Node {
        Node(self.function_field(function, 2, 2) as u16)
    }

    pub fn kind(&self, node: Node) -> u8 {
        self.node_field(node, KIND, 1) as u8
    }

    pub fn extra(&self, node: Node) -> u8 {
        self.node_field(node, EXTRA, 1) as u8
    }

    pub fn word(&self, node: Node) -> u32 {
        self.node_field(node, WORD, 4)
    }

    pub fn first(&self, node: Node) -> Node {
        Node(self.node_field(node, FIRST, 2) as u16)
    }

    pub fn next(&self, node: Node) -> Node {
        Node(self.node_field(node, NEXT, 2) as u16)
    }

    /// The children in order. A link that doesn't lead upwards ends the chain, so it ends for any bytes.
    pub fn children(&self, node: Node) -> Vec<Node> {
        let mut found = Vec::new();
        let (mut last, mut child) = (node, self.first(node));
        while child > last && self.has_node(child.0) {
            found.push(child);
            (last, child) = (child, self.next(child));
        }
        found
    }

    /// The node and all below it.
    pub fn at_or_below(&self, node: Node) -> Vec<Node> {
        let mut found = vec![node];
        let mut looked_at = 0;
        while looked_at < found.len() {
            found.extend(self.children(found[looked_at]));
            looked_at += 1;
        }
        found
    }
}
