//! The plain reading of a design and its count. Nothing is taken from the circuit.

use std::collections::BTreeMap;

use crate::table::{compute, Function, Node};
use crate::tree::{Kind, Tree};

/// What a reading came to: main's value and the count.
#[derive(Clone, Copy, PartialEq, Eq, Debug)]
pub struct Reading {
    pub value: u32,
    pub count: u64,
}

/// Reads main with these arguments; none where the count passes the limit, as it does where reading never ends.
pub fn read(tree: &Tree, arguments: &[u32], limit: u64) -> Option<Reading> {
    let mut reader = Reader { tree, count: 0, limit };
    let value = reader.function(tree.main(), arguments.to_vec())?;
    Some(Reading { value, count: reader.count })
}

/// How a part ended: with a value, or with a self call and its arguments.
enum End {
    Value(u32),
    SelfCall(Vec<u32>),
}

/// One reading of a body: its arguments, and the definientia read so far.
struct Body {
    arguments: Vec<u32>,
    bound: BTreeMap<Node, u32>,
}

struct Reader<'a> {
    tree: &'a Tree,
    count: u64,
    limit: u64,
}

impl Reader<'_> {
    fn add(&mut self, count: u64) -> Option<()> {
        self.count += count;
        (self.count <= self.limit).then_some(())
    }

    /// A function's root read with these arguments, and anew for each self call.
    fn function(&mut self, function: Function, mut arguments: Vec<u32>) -> Option<u32> {
        loop {
            let kept = self.tree.keep_all(function, &arguments);
            let mut body = Body { arguments: kept, bound: BTreeMap::new() };
            match self.part(&mut body, self.tree.root(function))? {
                End::Value(value) => return Some(value),
                End::SelfCall(again) => arguments = again,
            }
        }
    }

    fn part(&mut self, body: &mut Body, node: Node) -> Option<End> {
        let (children, owner) = (self.tree.children(node), self.tree.owner(node));
        match self.tree.kind(node) {
            Kind::Constant(value) => {
                self.add(1)?;
                Some(End::Value(value))
            }
            Kind::Parameter(index) => {
                self.add(1)?;
                Some(End::Value(body.arguments[index]))
            }
            Kind::Bound(definiens) => {
                self.add(1)?;
                Some(End::Value(body.bound[&definiens]))
            }
            Kind::Primitive(operation) => {
                self.add(2)?;
                let values = self.values(body, children)?;
                Some(End::Value(self.tree.keep(owner, compute(operation, &values))))
            }
            Kind::If => {
                let condition = self.value(body, children[0])?;
                self.last_part(body, if condition != 0 { children[1] } else { children[2] })
            }
            Kind::Let => {
                for definiens in self.tree.definientia(node) {
                    let value = self.value(body, *definiens)?;
                    body.bound.insert(*definiens, value);
                }
                self.last_part(body, self.tree.body(node))
            }
            Kind::Call(callee) if callee == owner => {
                self.add(2)?;
                Some(End::SelfCall(self.values(body, children)?))
            }
            Kind::Call(callee) => {
                self.add(3)?;
                let arguments = self.values(body, children)?;
                let answer = self.function(callee, arguments)?;
                Some(End::Value(self.tree.keep(owner, answer)))
            }
        }
    }

    /// The branch of an if or the body of a let; the holder counts 3, or 2 if this ended in a self call.
    fn last_part(&mut self, body: &mut Body, node: Node) -> Option<End> {
        self.add(2)?;
        let end = self.part(body, node)?;
        if let End::Value(_) = end {
            self.add(1)?;
        }
        Some(end)
    }

    fn value(&mut self, body: &mut Body, node: Node) -> Option<u32> {
        match self.part(body, node)? {
            End::Value(value) => Some(value),
            End::SelfCall(_) => unreachable!("self calls are in tail position"),
        }
    }

    fn values(&mut self, body: &mut Body, nodes: &[Node]) -> Option<Vec<u32>> {
        nodes.iter().map(|node| self.value(body, *node)).collect()
    }
}
