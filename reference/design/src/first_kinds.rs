//! What a taken step does to the steps that are possible, so that tests can count how often each way occurs.

use std::collections::BTreeSet;

use numbers::{BUSY, DONE, OPEN};

use crate::circuit::{decide, possible, Change, State};
use crate::table::{Function, Node};
use crate::tree::{Kind, Tree};

pub const MOVES: [&str; 6] = ["begins", "turns", "finishes", "leaves", "enters", "restarts"];

/// How the node of a step stands to the others when it is picked as the first.
pub const PICKED: [&str; 6] = [
    "picked alone",
    "picked before others",
    "picked past a lower call that waits for its callee",
    "picked past a lower call that is inside",
    "picked to enter, while higher calls wait for the same callee",
    "picked above node 64",
];

/// How a node comes to have a step that it had not, or to wait for one, in what a start leads to.
pub const ENABLED: [&str; 15] = [
    "opened by a holder that begins",
    "opened by an if or let that turns",
    "opened as the root of a callee entered",
    "opened as the root of a function restarted",
    "last child done, a primitive",
    "last argument done, and the callee is free",
    "last argument done, but the callee is held",
    "last argument done, a self call",
    "condition or last definiens done",
    "branch or body done",
    "root of the callee done",
    "callee left by another call",
    "callee left by another call, and so several calls",
    "a call begun without arguments",
    "others held by a call that enters",
];

/// What only states come to that no start leads to.
pub const ASTRAY: [&str; 13] = [
    "begun with a flag, and goes on at once",
    "begun with a flag, a call inside at once",
    "root done with several calls inside",
    "a condition done anew, and the if has its branch",
    "a call inside loses its step to one that enters",
    "a call inside loses its step to a self call",
    "a reset takes a possible step",
    "a reset takes a call that waits",
    "a reset takes a call that is inside",
    "a waiting call opened anew",
    "a call inside opened anew",
    "enters where another call is inside",
    "leaves what another call occupies",
];

/// What no first step does: an if goes before its condition, which has a higher number. The others would be ways that
/// nobody thought of.
pub const NEVER: [&str; 3] = [LACKS_BRANCH, NO_CAUSE, NO_CAUSE_TO_STOP];
const LACKS_BRANCH: &str = "a condition done anew, and the if lacks its branch";
const NO_CAUSE: &str = "possible for no known cause";
const NO_CAUSE_TO_STOP: &str = "impossible for no known cause";

/// What the step at this node did, which led from one state to the other.
pub fn first_kinds(tree: &Tree, tags: &[u8], before: &State, node: Node, after: &State) -> Vec<&'static str> {
    let Ok(change) = decide(tree, tags, before, node) else {
        return vec![NO_CAUSE];
    };
    let step = Step { tree, before, node, after, change };
    let were: BTreeSet<Node> = possible(tree, tags, before).collect();
    let mut found = vec![step.change.name()];
    found.extend(step.picked(&were));
    // Once main has answered nothing is possible, which says nothing of the nodes.
    if after.node(tree.root(tree.main())).status != DONE {
        let are: BTreeSet<Node> = possible(tree, tags, after).collect();
        found.extend(are.difference(&were).map(|other| step.enabled(*other)));
        found.extend(were.difference(&are).filter(|other| **other != node).map(|other| step.disabled(*other)));
        found.extend(step.besides(&were, &are));
    }
    found
}

struct Step<'a> {
    tree: &'a Tree,
    before: &'a State,
    node: Node,
    after: &'a State,
    change: Change,
}

impl Change {
    /// One of `MOVES`.
    pub(crate) fn name(&self) -> &'static str {
        match self {
            Change::Busy { .. } => "begins",
            Change::SecondPhase { .. } => "turns",
            Change::Done(_) => "finishes",
            Change::Leave(..) => "leaves",
            Change::Enter(_) => "enters",
            Change::Again(_) => "restarts",
        }
    }

    /// The function whose body is made ready.
    pub(crate) fn reset(&self) -> Option<Function> {
        match self {
            Change::Enter(function) | Change::Again(function) => Some(*function),
            _ => None,
        }
    }
}

impl Step<'_> {
    /// A busy call of a function, no self call, in this phase.
    fn is_call(&self, state: &State, node: Node, second: bool) -> bool {
        let entry = state.node(node);
        self.tree.other_callee(node).is_some() && (entry.status, entry.second) == (BUSY, second)
    }

    fn waits(&self, state: &State, node: Node) -> bool {
        let is_done = |child: &Node| state.node(*child).status == DONE;
        self.is_call(state, node, false) && self.tree.children(node).iter().all(is_done)
    }

    fn is_inside(&self, state: &State, node: Node) -> bool {
        self.is_call(state, node, true)
    }

    fn calls(&self, node: Node, function: Function) -> bool {
        self.tree.other_callee(node) == Some(function)
    }

    fn is_held(&self, state: &State, node: Node) -> bool {
        self.tree.other_callee(node).is_some_and(|callee| state.function(callee).occupant != Node(0))
    }

    fn picked(&self, were: &BTreeSet<Node>) -> Vec<&'static str> {
        let lower = || self.tree.nodes().filter(|other| *other < self.node);
        let idle = |other: &Node| !were.contains(other);
        let waits = |other: Node| self.waits(self.before, other);
        let mut found = vec![if were.len() > 1 { PICKED[1] } else { PICKED[0] }];
        found.extend(lower().filter(idle).any(waits).then_some(PICKED[2]));
        found.extend(lower().filter(idle).any(|other| self.is_inside(self.before, other)).then_some(PICKED[3]));
        if let Change::Enter(callee) = self.change {
            let rivals = were.iter().any(|other| *other != self.node && waits(*other) && self.calls(*other, callee));
            found.extend(rivals.then_some(PICKED[4]));
        }
        found.extend((self.node.0 > 64).then_some(PICKED[5]));
        found
    }

    /// Why this node has a step now.
    fn enabled(&self, other: Node) -> &'static str {
        let entry = self.after.node(other);
        let is_child = self.tree.children(other).contains(&self.node);
        match (&self.change, self.tree.kind(other)) {
            (Change::Busy { .. }, _) if entry.status == OPEN => "opened by a holder that begins",
            (Change::SecondPhase { .. }, _) if entry.status == OPEN => "opened by an if or let that turns",
            (Change::Enter(_), _) if entry.status == OPEN => "opened as the root of a callee entered",
            (Change::Again(_), _) if entry.status == OPEN => "opened as the root of a function restarted",
            (Change::Done(_) | Change::Leave(..), Kind::Primitive(_)) if is_child => "last child done, a primitive",
            (Change::Done(_) | Change::Leave(..), Kind::If) if is_child && entry.second => {
                let is_condition = self.tree.children(other)[0] == self.node;
                if is_condition {
                    "a condition done anew, and the if has its branch"
                } else {
                    "branch or body done"
                }
            }
            (Change::Done(_) | Change::Leave(..), Kind::Let) if is_child && entry.second => "branch or body done",
            (Change::Done(_) | Change::Leave(..), Kind::If | Kind::Let) if is_child => {
                "condition or last definiens done"
            }
            (Change::Done(_) | Change::Leave(..), Kind::Call(callee)) => {
                let is_own = callee == self.tree.owner(other);
                if is_child && is_own {
                    "last argument done, a self call"
                } else if is_child && !entry.second {
                    "last argument done, and the callee is free"
                } else if entry.second && self.tree.root(callee) == self.node {
                    "root of the callee done"
                } else if matches!(self.change, Change::Leave(left, _) if left == callee && !entry.second) {
                    "callee left by another call"
                } else {
                    NO_CAUSE
                }
            }
            _ => NO_CAUSE,
        }
    }

    /// Why this node has no step any more, which another took.
    fn disabled(&self, other: Node) -> &'static str {
        let is_reset = self.change.reset().is_some_and(|function| self.tree.owner(other) == function);
        let calls_reset = self.change.reset().is_some_and(|function| self.calls(other, function));
        match self.change {
            _ if is_reset => "a reset takes a possible step",
            Change::Enter(_) if calls_reset && self.waits(self.after, other) => "others held by a call that enters",
            Change::Enter(_) if calls_reset => "a call inside loses its step to one that enters",
            Change::Again(_) if calls_reset => "a call inside loses its step to a self call",
            Change::Done(_) | Change::Leave(..) if self.tree.children(other).first() == Some(&self.node) => {
                LACKS_BRANCH
            }
            _ => NO_CAUSE_TO_STOP,
        }
    }

    /// What no single node's step tells.
    fn besides(&self, were: &BTreeSet<Node>, are: &BTreeSet<Node>) -> Vec<&'static str> {
        let mut found = Vec::new();
        let mut note = |kind: &'static str, there: bool| found.extend(there.then_some(kind));
        let count = |wanted: &dyn Fn(Node) -> bool| self.tree.nodes().filter(|other| wanted(*other)).count();
        let is_new = |other: Node| are.contains(&other) && !were.contains(&other);
        let held_now = |other: Node| self.is_held(self.after, other) && !self.waits(self.before, other);
        match &self.change {
            Change::Busy { opens } => {
                let kind = self.tree.kind(self.node);
                let is_looked_at = matches!(kind, Kind::If | Kind::Let) || self.tree.other_callee(self.node).is_some();
                let has_flag = self.before.node(self.node).second && is_looked_at;
                let goes_on = are.contains(&self.node);
                let is_call = matches!(kind, Kind::Call(_));
                note("begun with a flag, and goes on at once", has_flag && goes_on);
                note("begun with a flag, a call inside at once", self.is_inside(self.after, self.node) && !goes_on);
                note("a call begun without arguments", is_call && opens.is_empty());
                note("a waiting call opened anew", opens.iter().any(|other| self.waits(self.before, *other)));
                note("a call inside opened anew", opens.iter().any(|other| self.is_inside(self.before, *other)));
            }
            Change::Done(_) | Change::Leave(..) => {
                let waits = |other: Node| self.waits(self.after, other) && held_now(other);
                note("last argument done, but the callee is held", count(&waits) > 0);
                let owner = self.tree.owner(self.node);
                let inside = |other: Node| self.calls(other, owner) && self.is_inside(self.after, other);
                note("root done with several calls inside", self.node == self.tree.root(owner) && count(&inside) > 1);
            }
            Change::SecondPhase { opens } => {
                note("a waiting call opened anew", self.waits(self.before, *opens));
                note("a call inside opened anew", self.is_inside(self.before, *opens));
            }
            Change::Enter(_) | Change::Again(_) => {}
        }
        if let Change::Leave(callee, _) = self.change {
            let released = |other: Node| is_new(other) && self.calls(other, callee) && self.waits(self.before, other);
            note("callee left by another call, and so several calls", count(&released) > 1);
            note("leaves what another call occupies", self.before.function(callee).occupant != self.node);
        }
        if let Some(function) = self.change.reset() {
            let within = |other: Node| self.tree.owner(other) == function && other != self.node;
            note(
                "a reset takes a call that waits",
                count(&|other| within(other) && self.waits(self.before, other)) > 0,
            );
            let inside = |other: Node| self.is_inside(self.before, other);
            note("a reset takes a call that is inside", count(&|other| within(other) && inside(other)) > 0);
            let is_entry = matches!(self.change, Change::Enter(_));
            let rival = |other: Node| self.calls(other, function) && inside(other);
            note("enters where another call is inside", is_entry && count(&rival) > 0);
        }
        found
    }
}
