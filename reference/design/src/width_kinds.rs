//! What a taken step does with widths, so that tests can count how often it occurs.

use numbers::{MOST_WIDTH, OPEN};

use crate::circuit::State;
use crate::table::{compute, Function, Node};
use crate::tree::{Kind, Tree};

/// What steps from a start come to.
pub const STARTED: [&str; 9] = [
    "a result loses bits",
    "a result has all bits",
    "an argument loses bits in a narrower callee",
    "an argument fits a narrower callee",
    "an argument goes to a wider callee",
    "an answer loses bits in a narrower caller",
    "an answer fits a narrower caller",
    "an answer goes to a wider caller",
    "a self call with a result that lost bits",
];

/// Those of them in which a value is cut.
pub const LOSSES: [&str; 3] =
    ["a result loses bits", "an argument loses bits in a narrower callee", "an answer loses bits in a narrower caller"];

/// What only states come to that no start leads to.
pub const ASTRAY: [&str; 7] = [
    "an argument of a self call loses bits",
    "an argument was too wide for the caller",
    "an answer was too wide for the callee",
    "a wide register passes a parameter",
    "a wide value passes a bound",
    "a wide value passes an if or let",
    "operands cut first would come to another result",
];

/// Whether a function has fewer bits than a value.
pub fn is_narrow(tree: &Tree) -> bool {
    tree.functions().any(|function| tree.width(function) < MOST_WIDTH)
}

/// What a step at this node does, which is taken in this state.
pub fn width_kinds(tree: &Tree, state: &State, node: Node) -> Vec<&'static str> {
    let mut found = Vec::new();
    let mut note = |kind, there: bool| {
        if there {
            found.push(kind);
        }
    };
    let (owner, own) = (tree.owner(node), tree.width(tree.owner(node)));
    let value = |node: Node| state.node(node).value;
    let values = |node: Node| -> Vec<u32> { tree.children(node).iter().map(|child| value(*child)).collect() };
    let cut = |function: Function, value: u32| tree.keep(function, value) != value;
    let is_open = state.node(node).status == OPEN;
    match tree.kind(node) {
        Kind::Parameter(index) if is_open => {
            note("a wide register passes a parameter", cut(owner, state.function(owner).registers[index]));
        }
        Kind::Bound(definiens) if is_open => note("a wide value passes a bound", cut(owner, value(definiens))),
        _ if is_open => {}
        Kind::Primitive(operation) => {
            let result = compute(operation, &values(node));
            note("a result loses bits", cut(owner, result));
            note("a result has all bits", own == MOST_WIDTH);
            let of_cut = compute(operation, &tree.keep_all(owner, &values(node)));
            let differs = tree.keep(owner, of_cut) != tree.keep(owner, result);
            note("operands cut first would come to another result", differs);
        }
        Kind::If | Kind::Let if state.node(node).second => {
            let children = tree.children(node);
            let last = match tree.kind(node) {
                Kind::If if value(children[0]) != 0 => children[1],
                _ => children[children.len() - 1],
            };
            note("a wide value passes an if or let", cut(owner, value(last)));
        }
        Kind::Call(callee) if callee == owner => {
            let lost = |child: &Node| match tree.kind(*child) {
                Kind::Primitive(operation) => cut(owner, compute(operation, &values(*child))),
                _ => false,
            };
            note("a self call with a result that lost bits", tree.children(node).iter().any(lost));
            note("an argument of a self call loses bits", values(node).iter().any(|value| cut(owner, *value)));
        }
        Kind::Call(callee) if state.node(node).second => {
            let (answer, other) = (value(tree.root(callee)), tree.width(callee));
            note("an answer loses bits in a narrower caller", own < other && cut(owner, answer));
            note("an answer fits a narrower caller", own < other && !cut(owner, answer));
            note("an answer goes to a wider caller", own > other);
            note("an answer was too wide for the callee", cut(callee, answer));
        }
        Kind::Call(callee) => {
            let (arguments, other) = (values(node), tree.width(callee));
            let any = |wanted: &dyn Fn(u32) -> bool| arguments.iter().any(|value| wanted(*value));
            note("an argument loses bits in a narrower callee", other < own && any(&|value| cut(callee, value)));
            note("an argument fits a narrower callee", other < own && any(&|value| value > 0 && !cut(callee, value)));
            note("an argument goes to a wider callee", other > own && !arguments.is_empty());
            note("an argument was too wide for the caller", any(&|value| cut(owner, value)));
        }
        _ => {}
    }
    found
}
