//! An accepted table as a tree, for the parts that come after the check.

use numbers::{BOUND, CALL, CONSTANT, IF, LET, PARAMETER, PRIMITIVE};

use crate::check::{check, owners};
use crate::table::{narrow, Function, Node, Refusal, Table};

#[derive(Clone, Copy, PartialEq, Eq, Debug)]
pub enum Kind {
    Constant(u32),
    Parameter(usize),
    Primitive(u8),
    Call(Function),
    If,
    Let,
    Bound(Node),
}

struct NodeEntry {
    kind: Kind,
    owner: Function,
    children: Vec<Node>,
}

struct FunctionEntry {
    parameters: usize,
    width: u8,
    root: Node,
    nodes: Vec<Node>,
}

/// A design whose table passed the check.
pub struct Tree {
    functions: Vec<FunctionEntry>,
    nodes: Vec<NodeEntry>,
}

impl Tree {
    pub fn read(bytes: &[u8]) -> Result<Tree, Refusal> {
        check(bytes)?;
        let table = Table::new(bytes);
        let owners = owners(&table);
        let node_entry =
            |node: Node| NodeEntry { kind: kind(&table, node), owner: owners[&node], children: table.children(node) };
        let function_entry = |function: Function| FunctionEntry {
            parameters: usize::from(table.parameter_count(function)),
            width: table.width(function),
            root: table.root(function),
            nodes: table.nodes().filter(|node| owners[node] == function).collect(),
        };
        Ok(Tree {
            functions: table.functions().map(function_entry).collect(),
            nodes: table.nodes().map(node_entry).collect(),
        })
    }

    pub fn function_count(&self) -> usize {
        self.functions.len()
    }

    pub fn node_count(&self) -> usize {
        self.nodes.len()
    }

    pub fn functions(&self) -> impl Iterator<Item = Function> {
        (1..=self.functions.len() as u16).map(Function)
    }

    pub fn nodes(&self) -> impl Iterator<Item = Node> {
        (1..=self.nodes.len() as u16).map(Node)
    }

    pub fn main(&self) -> Function {
        Function(self.functions.len() as u16)
    }

    fn function(&self, function: Function) -> &FunctionEntry {
        &self.functions[usize::from(function.0) - 1]
    }

    fn node(&self, node: Node) -> &NodeEntry {
        &self.nodes[usize::from(node.0) - 1]
    }

    pub fn parameters(&self, function: Function) -> usize {
        self.function(function).parameters
    }

    /// Bits, 1 to 32.
    pub fn width(&self, function: Function) -> u8 {
        self.function(function).width
    }

    /// A value as a function keeps it.
    pub fn keep(&self, function: Function, value: u32) -> u32 {
        narrow(self.width(function), value)
    }

    /// Values as a function keeps them.
    pub fn keep_all(&self, function: Function, values: &[u32]) -> Vec<u32> {
        values.iter().map(|value| self.keep(function, *value)).collect()
    }

    pub fn root(&self, function: Function) -> Node {
        self.function(function).root
    }

    pub fn nodes_of(&self, function: Function) -> &[Node] {
        &self.function(function).nodes
    }

    pub fn kind(&self, node: Node) -> Kind {
        self.node(node).kind
    }

    pub fn owner(&self, node: Node) -> Function {
        self.node(node).owner
    }

    pub fn children(&self, node: Node) -> &[Node] {
        &self.node(node).children
    }

    /// All children of a let but the last.
    pub fn definientia(&self, node: Node) -> &[Node] {
        let children = self.children(node);
        &children[..children.len() - 1]
    }

    /// The last child of a let.
    pub fn body(&self, node: Node) -> Node {
        let children = self.children(node);
        children[children.len() - 1]
    }

    /// The callee of a call that is no self call.
    pub fn other_callee(&self, node: Node) -> Option<Function> {
        match self.kind(node) {
            Kind::Call(callee) if callee != self.owner(node) => Some(callee),
            _ => None,
        }
    }
}

fn kind(table: &Table, node: Node) -> Kind {
    let word = table.word(node);
    match table.kind(node) {
        CONSTANT => Kind::Constant(word),
        PARAMETER => Kind::Parameter(usize::from(table.extra(node))),
        PRIMITIVE => Kind::Primitive(table.extra(node)),
        CALL => Kind::Call(Function(word as u16)),
        IF => Kind::If,
        LET => Kind::Let,
        BOUND => Kind::Bound(Node(word as u16)),
        other => unreachable!("kind {other} passed the check"),
    }
}
