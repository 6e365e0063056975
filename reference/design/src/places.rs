//! Where faults are made in a table, and how its bytes are changed there.

use crate::random::Random;
use crate::reach::reached;
use crate::table::{Function, Node, Table};
use crate::tree::Tree;

/// Nodes and functions with records that may be changed.
pub struct Places {
    pub nodes: Vec<Node>,
    pub functions: Vec<Function>,
}

impl Places {
    /// All of a table that has the right length.
    pub fn all(bytes: &[u8]) -> Places {
        let table = Table::new(bytes);
        Places { nodes: table.nodes().collect(), functions: table.functions().collect() }
    }

    /// Those that main doesn't reach.
    pub fn spare(tree: &Tree) -> Places {
        let reached = reached(tree);
        let is_spare = |function: Function| !reached.contains(&function);
        Places {
            nodes: tree.nodes().filter(|node| is_spare(tree.owner(*node))).collect(),
            functions: tree.functions().filter(|function| is_spare(*function)).collect(),
        }
    }

    pub fn node(&self, random: &mut Random) -> Node {
        random.pick(&self.nodes)
    }

    pub fn function(&self, random: &mut Random) -> Function {
        random.pick(&self.functions)
    }

    /// A node of this kind, or any where there is none.
    pub fn node_of_kind(&self, random: &mut Random, bytes: &[u8], kind: u8) -> Node {
        self.fitting_node(random, |node| Table::new(bytes).kind(node) == kind).unwrap_or_else(|| self.node(random))
    }

    pub fn fitting_node(&self, random: &mut Random, fits: impl Fn(Node) -> bool) -> Option<Node> {
        let fitting: Vec<Node> = self.nodes.iter().filter(|node| fits(**node)).copied().collect();
        (!fitting.is_empty()).then(|| random.pick(&fitting))
    }

    /// Any byte of the records.
    pub fn byte(&self, random: &mut Random, bytes: &[u8]) -> usize {
        let of_functions = 4 * self.functions.len();
        match random.below(of_functions + 10 * self.nodes.len()) {
            at if at < of_functions => count_at(self.functions[at / 4]) + at % 4,
            at => node_at(bytes, self.nodes[(at - of_functions) / 10], (at - of_functions) % 10),
        }
    }
}

pub fn count_at(function: Function) -> usize {
    4 * usize::from(function.0)
}

pub fn width_at(function: Function) -> usize {
    count_at(function) + 1
}

pub fn root_at(function: Function) -> usize {
    count_at(function) + 2
}

pub fn node_at(bytes: &[u8], node: Node, field: usize) -> usize {
    4 + 4 * usize::from(Table::new(bytes).function_count()) + 10 * (usize::from(node.0) - 1) + field
}

pub fn set(bytes: &mut [u8], node: Node, field: usize, new: &[u8]) {
    let at = node_at(bytes, node, field);
    put(bytes, at, new);
}

pub fn put(bytes: &mut [u8], at: usize, new: &[u8]) {
    bytes[at..at + new.len()].copy_from_slice(new);
}

/// Swaps two links.
pub fn swap(bytes: &mut [u8], one: usize, two: usize) {
    for i in 0..2 {
        bytes.swap(one + i, two + i);
    }
}
