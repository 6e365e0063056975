//! Kinds of pairs of steps that are possible in one state, so that tests can count how often each occurs.

use numbers::DONE;

use crate::circuit::{decide, Change};
use crate::features::holds;
use crate::first_kinds::MOVES;
use crate::pairs::Moment;
use crate::table::{Function, Node};
use crate::tree::Kind;
use crate::width_kinds::{width_kinds, LOSSES};

/// What the two steps do, in the order of `MOVES`. From a start each of these occurs.
pub const MOVES_BESIDE: [&str; 21] = [
    "begins beside begins",
    "begins beside turns",
    "begins beside finishes",
    "begins beside leaves",
    "begins beside enters",
    "begins beside restarts",
    "turns beside turns",
    "turns beside finishes",
    "turns beside leaves",
    "turns beside enters",
    "turns beside restarts",
    "finishes beside finishes",
    "finishes beside leaves",
    "finishes beside enters",
    "finishes beside restarts",
    "leaves beside leaves",
    "leaves beside enters",
    "leaves beside restarts",
    "enters beside enters",
    "enters beside restarts",
    "restarts beside restarts",
];

/// Where the two nodes are, and what else is true of them, in what a start leads to.
pub const PLACED: [&str; 27] = [
    "both in main",
    "both in one body that was called",
    "one in main, the other in a body that was called",
    "in two bodies that were called",
    "both enter, from one body",
    "both enter, from different bodies",
    "one enters, the other is a call of the same body",
    "one enters, the other leaves, in one body",
    "calls of one function, and one enters it",
    "calls of one function, and one leaves it",
    "one leaves what a third call waits for",
    "one restarts, the other is a call",
    "children of one holder, which goes on after both",
    "one is the root of a body that was called, and is done",
    "a call begins without arguments",
    "an if begins",
    "a let begins",
    "an if turns",
    "a let turns",
    "an if passes its value",
    "a let passes its value",
    "a primitive is worked out",
    "a bound name is read",
    "both read one bound name",
    "both read one register",
    "one loses bits",
    "both lose bits",
];

/// A pair for which one word of nodes isn't enough.
pub const HIGH: &str = "one is above node 64";

/// Two calls that both enter one resource.
pub const RIVALS: [&str; 3] = ["rivals in one body", "rivals in different bodies", "rivals beside a third"];

/// All that makes the order of two steps matter that are no rivals. No start leads to any of it.
pub const CAUSES: [&str; 5] = [
    "one is below the other",
    "one reads the name that the other makes",
    "one resets the body of the other",
    "one resets what the other leaves",
    "one answers for main",
];

/// What no start leads to either, though either order would do.
pub const HARMLESS: [&str; 2] = ["both leave one resource", "one leaves a body, the other is in it"];

impl Moment<'_> {
    /// The kinds of this pair of nodes with steps.
    pub fn kinds(&self, nodes: [Node; 2]) -> Vec<&'static str> {
        let [Some(one), Some(other)] = nodes.map(|node| self.change(node)) else {
            return Vec::new();
        };
        let side = |node, change| Side { at: self, node, change };
        let (one, other) = (side(nodes[0], one), side(nodes[1], other));
        if self.rivals(one.node, other.node) {
            return one.rivals(&other);
        }
        let mut found: Vec<&'static str> = one.moves_beside(&other).into_iter().collect();
        found.extend(one.placed(&other));
        found.extend(one.astray(&other));
        found
    }

    /// A call that has its arguments and would enter this function, were it free.
    fn waits_for(&self, function: Function, node: Node) -> bool {
        let refused = decide(self.tree, self.tags, self.state, node).err();
        self.tree.other_callee(node) == Some(function) && matches!(refused, Some(22 | 23))
    }
}

/// One node of a pair with its step.
struct Side<'a> {
    at: &'a Moment<'a>,
    node: Node,
    change: Change,
}

impl<'a> Side<'a> {
    fn kind(&self) -> Kind {
        self.at.tree.kind(self.node)
    }

    fn owner(&self) -> Function {
        self.at.tree.owner(self.node)
    }

    fn callee(&self) -> Option<Function> {
        self.at.tree.other_callee(self.node)
    }

    fn is(&self, name: &str) -> bool {
        self.change.name() == name
    }

    /// Whether the node has a value after the step.
    fn is_done(&self) -> bool {
        matches!(self.change, Change::Done(_) | Change::Leave(..))
    }

    /// The resource that it leaves.
    fn left(&self) -> Option<Function> {
        match self.change {
            Change::Leave(callee, _) => Some(callee),
            _ => None,
        }
    }

    fn in_main(&self) -> bool {
        self.owner() == self.at.tree.main()
    }

    fn is_root(&self) -> bool {
        self.node == self.at.tree.root(self.owner())
    }

    fn loses_bits(&self) -> bool {
        width_kinds(self.at.tree, self.at.state, self.node).iter().any(|kind| LOSSES.contains(kind))
    }

    /// Those of `RIVALS` that this pair is.
    fn rivals(&self, other: &Side<'a>) -> Vec<&'static str> {
        let is_third = |node: Node| ![self.node, other.node].contains(&node) && self.at.rivals(self.node, node);
        let [one_body, two_bodies, with_third] = RIVALS;
        let mut found = vec![if self.owner() == other.owner() { one_body } else { two_bodies }];
        found.extend(self.at.tree.nodes().any(is_third).then_some(with_third));
        found
    }

    fn moves_beside(&self, other: &Side<'a>) -> Option<&'static str> {
        let mut names = [self.change.name(), other.change.name()];
        names.sort_by_key(|name| MOVES.iter().position(|known| known == name));
        let both = names.join(" beside ");
        MOVES_BESIDE.into_iter().find(|known| *known == both)
    }

    /// Those of `PLACED` that this pair is.
    fn placed(&self, other: &Side<'a>) -> Vec<&'static str> {
        let mut found = Vec::new();
        let mut note = |kind, there: bool| found.extend(there.then_some(kind));
        let any = |wanted: &dyn Fn(&Side<'a>) -> bool| wanted(self) || wanted(other);
        let both = |wanted: &dyn Fn(&Side<'a>) -> bool| wanted(self) && wanted(other);
        let is_call = |side: &Side<'a>| side.callee().is_some();
        let in_main = any(&Side::in_main);
        let (one_body, one_callee) = (self.owner() == other.owner(), is_call(self) && self.callee() == other.callee());
        note("both in main", one_body && in_main);
        note("both in one body that was called", one_body && !in_main);
        note("one in main, the other in a body that was called", !one_body && in_main);
        note("in two bodies that were called", !one_body && !in_main);
        let both_enter = both(&|side| side.is("enters"));
        note("both enter, from one body", both_enter && one_body);
        note("both enter, from different bodies", both_enter && !one_body);
        let enters_beside = |wanted: &dyn Fn(&Side<'a>) -> bool| {
            one_body && self.one_way(other, &|one, other| one.is("enters") && wanted(other))
        };
        note("one enters, the other is a call of the same body", enters_beside(&is_call));
        note("one enters, the other leaves, in one body", enters_beside(&|side| side.is("leaves")));
        note("calls of one function, and one enters it", one_callee && any(&|side| side.is("enters")));
        note("calls of one function, and one leaves it", one_callee && any(&|side| side.is("leaves")));
        note("one leaves what a third call waits for", any(&Side::leaves_to_a_third));
        let restarts = |one: &Side<'a>, other: &Side<'a>| one.is("restarts") && is_call(other);
        note("one restarts, the other is a call", self.one_way(other, &restarts));
        note("children of one holder, which goes on after both", both(&Side::is_done) && self.completes_with(other));
        let ends_body = |side: &Side<'a>| side.is_done() && side.is_root() && !side.in_main();
        note("one is the root of a body that was called, and is done", any(&ends_body));
        let has_no_arguments = |side: &Side<'a>| matches!(&side.change, Change::Busy { opens } if opens.is_empty());
        note("a call begins without arguments", any(&has_no_arguments));
        let of_kind = |move_name: &str, kind: Kind| any(&|side| side.is(move_name) && side.kind() == kind);
        note("an if begins", of_kind("begins", Kind::If));
        note("a let begins", of_kind("begins", Kind::Let));
        note("an if turns", of_kind("turns", Kind::If));
        note("a let turns", of_kind("turns", Kind::Let));
        note("an if passes its value", of_kind("finishes", Kind::If));
        note("a let passes its value", of_kind("finishes", Kind::Let));
        let is_primitive = |side: &Side<'a>| matches!(side.kind(), Kind::Primitive(_));
        note("a primitive is worked out", any(&|side| side.is("finishes") && is_primitive(side)));
        note("a bound name is read", any(&|side| matches!(side.kind(), Kind::Bound(_))));
        let read_alike = one_body && self.kind() == other.kind();
        note("both read one bound name", read_alike && matches!(self.kind(), Kind::Bound(_)));
        note("both read one register", read_alike && matches!(self.kind(), Kind::Parameter(_)));
        note("one loses bits", any(&Side::loses_bits));
        note("both lose bits", both(&Side::loses_bits));
        note(HIGH, any(&|side| side.node.0 > 64));
        found
    }

    /// Whether this is so of the two, one way round or the other.
    fn one_way(&self, other: &Side<'a>, wanted: &dyn Fn(&Side<'a>, &Side<'a>) -> bool) -> bool {
        wanted(self, other) || wanted(other, self)
    }

    /// Whether it leaves a resource that another call waits for.
    fn leaves_to_a_third(&self) -> bool {
        self.left().is_some_and(|callee| self.at.tree.nodes().any(|node| self.at.waits_for(callee, node)))
    }

    /// Whether these are the last two that a primitive, a call or a let waits for.
    fn completes_with(&self, other: &Side<'a>) -> bool {
        let tree = self.at.tree;
        tree.nodes_of(self.owner()).iter().any(|holder| {
            let parts = match tree.kind(*holder) {
                Kind::Primitive(_) | Kind::Call(_) => tree.children(*holder),
                Kind::Let => tree.definientia(*holder),
                _ => &[],
            };
            let due: Vec<&Node> = parts.iter().filter(|part| self.at.state.node(**part).status != DONE).collect();
            due.len() == 2 && due.contains(&&self.node) && due.contains(&&other.node)
        })
    }

    /// Those of `CAUSES` and `HARMLESS` that this pair is.
    fn astray(&self, other: &Side<'a>) -> Vec<&'static str> {
        let mut found = Vec::new();
        let mut note = |kind, there: bool| found.extend(there.then_some(kind));
        let one_way = |wanted: &dyn Fn(&Side<'a>, &Side<'a>) -> bool| self.one_way(other, wanted);
        let is_below = |one: &Side<'a>, other: &Side<'a>| holds(self.at.tree, other.node, &|node| node == one.node);
        note("one is below the other", one_way(&is_below));
        note("one reads the name that the other makes", one_way(&|one, other| one.kind() == Kind::Bound(other.node)));
        let resets_body = |one: &Side<'a>, other: &Side<'a>| one.change.reset() == Some(other.owner());
        note("one resets the body of the other", one_way(&resets_body));
        let resets_left =
            |one: &Side<'a>, other: &Side<'a>| other.left().is_some() && one.change.reset() == other.left();
        note("one resets what the other leaves", one_way(&resets_left));
        note("one answers for main", one_way(&|one, _| one.is_done() && one.is_root() && one.in_main()));
        note("both leave one resource", self.left().is_some() && self.left() == other.left());
        note("one leaves a body, the other is in it", one_way(&|one, other| one.left() == Some(other.owner())));
        found
    }
}
