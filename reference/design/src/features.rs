//! What the rules speak of and a design may have or not, so that tests can count how often it occurs.

use numbers::{BESIDE, MOST_WIDTH};

use crate::list::{arbiter_list, list_over_all, Calls};
use crate::reach::reached;
use crate::table::{narrow, Function, Node};
use crate::tree::{Kind, Tree};

/// Nodes from this one down to the deepest leaf.
pub fn depth(tree: &Tree, node: Node) -> usize {
    1 + tree.children(node).iter().map(|child| depth(tree, *child)).max().unwrap_or(0)
}

/// Whether a node below this one is wanted.
pub(crate) fn holds(tree: &Tree, node: Node, wanted: &dyn Fn(Node) -> bool) -> bool {
    tree.children(node).iter().any(|child| wanted(*child) || holds(tree, *child, wanted))
}

fn in_preorder(tree: &Tree) -> bool {
    fn walk(tree: &Tree, node: Node, order: &mut Vec<Node>) {
        order.push(node);
        for child in tree.children(node) {
            walk(tree, *child, order);
        }
    }
    let mut order = Vec::new();
    for function in tree.functions() {
        walk(tree, tree.root(function), &mut order);
    }
    order.iter().copied().eq(tree.nodes())
}

/// Names of what occurs in this design.
pub fn features(tree: &Tree) -> Vec<String> {
    let mut found = Vec::new();
    let mut note = |name: &str, there: bool| {
        if there {
            found.push(name.to_string());
        }
    };
    let callee = |node: Node| match tree.kind(node) {
        Kind::Call(callee) => Some(callee),
        _ => None,
    };
    let self_call = |node: Node| callee(node) == Some(tree.owner(node));
    let other_call = |node: Node| tree.other_callee(node).is_some();
    let is_let = |node: Node| tree.kind(node) == Kind::Let;
    let any = |wanted: &dyn Fn(Node) -> bool| tree.nodes().any(wanted);
    for operation in 0..=BESIDE {
        note(&format!("operation {operation}"), any(&|node| tree.kind(node) == Kind::Primitive(operation)));
    }
    note("call without argument", any(&|node| other_call(node) && tree.children(node).is_empty()));
    note("call with eight arguments", any(&|node| other_call(node) && tree.children(node).len() == 8));
    note("self call", any(&self_call));
    note("call in an argument of a self call", any(&|node| self_call(node) && holds(tree, node, &other_call)));
    note("let in a let", any(&|node| is_let(node) && holds(tree, node, &is_let)));
    note("let of nine", any(&|node| is_let(node) && tree.children(node).len() == 9));
    note("beside of eight", any(&|node| tree.kind(node) == Kind::Primitive(BESIDE) && tree.children(node).len() == 8));
    note("beside of one", any(&|node| tree.kind(node) == Kind::Primitive(BESIDE) && tree.children(node).len() == 1));
    note("bound", any(&|node| matches!(tree.kind(node), Kind::Bound(_))));
    note("if", any(&|node| tree.kind(node) == Kind::If));
    let is_called = |function: Function| any(&|node| tree.other_callee(node) == Some(function));
    let nobody = tree.functions().any(|function| function != tree.main() && !is_called(function));
    note("function nobody calls", nobody);
    note("deep chain", tree.functions().any(|function| depth(tree, tree.root(function)) > 30));
    note("numbers out of preorder", !in_preorder(tree));
    for width in [1, 2, 3, 4, 8, 16, 31, MOST_WIDTH] {
        note(&format!("width {width}"), tree.functions().any(|function| tree.width(function) == width));
    }
    let widths = |node: Node, callee: Function| (tree.width(tree.owner(node)), tree.width(callee));
    let calls = |fits: &dyn Fn((u8, u8)) -> bool| {
        any(&|node| tree.other_callee(node).is_some_and(|callee| fits(widths(node, callee))))
    };
    note("narrow caller of a wider function", calls(&|(caller, callee)| caller < callee));
    note("wide caller of a narrower function", calls(&|(caller, callee)| caller > callee));
    note("narrow self call", any(&|node| self_call(node) && tree.width(tree.owner(node)) < MOST_WIDTH));
    let is_largest = |node: Node| {
        let width = tree.width(tree.owner(node));
        width < MOST_WIDTH && tree.kind(node) == Kind::Constant(narrow(width, u32::MAX))
    };
    note("largest constant of a narrow function", any(&is_largest));
    let list = arbiter_list(tree);
    note("list", !list.is_empty());
    let sites = |node: Node| tree.nodes().filter(|other| tree.other_callee(*other) == tree.other_callee(node)).count();
    note("lone site on the list", list.iter().any(|node| sites(*node) == 1));
    note("call off the list beside a list", !list.is_empty() && any(&|node| other_call(node) && !list.contains(&node)));
    for (name, there) in of_reach(tree, &list) {
        note(name, there);
    }
    found
}

/// What has to do with main's reach.
fn of_reach(tree: &Tree, list: &Calls) -> [(&'static str, bool); 6] {
    let reached = reached(tree);
    let is_spare = |function: Function| !reached.contains(&function);
    let calls = |caller: Function, callee: Function| {
        tree.nodes_of(caller).iter().any(|node| tree.other_callee(*node) == Some(callee))
    };
    // Whether a function is called from a body that main reaches, and from one that it doesn't.
    let from_reached = |callee: Function| tree.functions().any(|other| !is_spare(other) && calls(other, callee));
    let from_spare = |callee: Function| tree.functions().any(|other| is_spare(other) && calls(other, callee));
    let any = |wanted: &dyn Fn(Function) -> bool| tree.functions().any(wanted);
    let is_far = |function: Function| function != tree.main() && !calls(tree.main(), function);
    let over_all = list_over_all(tree);
    [
        ("function out of reach", any(&is_spare)),
        ("list over all bodies differs", over_all != *list),
        (
            "reached call in conflict out of reach alone",
            over_all.difference(list).any(|call| !is_spare(tree.owner(*call))),
        ),
        ("out of reach shares a callee with a reached body", any(&|callee| from_reached(callee) && from_spare(callee))),
        ("called only from out of reach", any(&|callee| from_spare(callee) && !from_reached(callee))),
        ("reached through two levels", list.iter().any(|call| is_far(tree.owner(*call)))),
    ]
}
