//! Named states with the nodes of the steps that a run takes from them, worked out by hand.

use numbers::{BUSY, DONE, IDLE, OPEN};

use crate::asm::assemble;
use crate::circuit::{run_list, start, Ending, NodeState, State};
use crate::list::tags_of;
use crate::table::Node;

pub struct FirstCase {
    pub name: &'static str,
    pub text: &'static str,
    pub before: State,
    pub nodes: &'static [u16],
    pub ending: Ending,
}

impl FirstCase {
    /// Its table, and tags: the arbiter list, which has no say in what is possible.
    pub fn table(&self) -> (Vec<u8>, Vec<u8>) {
        listed(self.text)
    }
}

/// The table of a text, and its arbiter list as tags.
pub(crate) fn listed(text: &str) -> (Vec<u8>, Vec<u8>) {
    let bytes = assemble(text).expect(text);
    let tags = tags_of(&bytes).expect(text);
    (bytes, tags)
}

/// Nodes 1; 2 beside; 3 call, 4; 5 call, 6.
pub(crate) const BESIDE: &str = "fun f(x) = x  fun main(x) = beside(f(x), f(x))";

/// The same with a third: 7 call, 8.
pub(crate) const THREE: &str = "fun f(x) = x  fun main(x) = beside(f(x), f(x), f(x))";

/// Nodes 1; 2 call of f, 3; 4 beside; 5 call of g, 6; 7 call of f, 8.
pub(crate) const HELD: &str = "fun f(x) = x  fun g(x) = f(x)  fun main(x) = beside(g(x), f(x))";

/// Nodes 1; 2 call of g, 3; 4 beside; 5 call of f, 6; 7 call of f, 8.
const STUCK: &str = "fun g(x) = x  fun f(x) = g(x)  fun main(x) = beside(f(x), f(x))";

/// Nodes 1 if; 2; 3 self call, 4 halve, 5; 6.
const HALVED: &str = "fun main(x) = if x then main(halve(x)) else 9";

/// Nodes 1 if; 2, 3, 4.
const IF: &str = "fun main() = if 1 then 2 else 3";

/// Nodes 1 beside; 2 if; 3, 4, 5.
pub(crate) const ELSE: &str = "fun main() = beside(if 0 then 2 else 3)";

/// Nodes 1 if; 2; 3 self call, 4; 5; 6 call of f, 7.
pub(crate) const AGAIN: &str = "fun f(x) = if x then f(0) else 9  fun main() = f(1)";

/// From a start, after these steps.
pub(crate) fn started(text: &str, arguments: &[u32], steps: &[u16]) -> State {
    let (bytes, tags) = listed(text);
    let mut state = State::zero();
    start(&bytes, &tags, arguments, &mut state).expect(text);
    assert_eq!(run_list(&bytes, &tags, &mut state, steps), Ok((steps.len(), None)), "{text}");
    state
}

/// Nodes 1, 2, .. as given by status, flag and value, the rest idle, and what is in the first register of function 1.
pub(crate) fn standing(nodes: &[(u8, bool, u32)], register: u32) -> State {
    let mut state = State::zero();
    for (entry, (status, second, value)) in state.nodes.iter_mut().zip(nodes) {
        *entry = NodeState { status: *status, second: *second, value: *value };
    }
    state.functions[0].registers[0] = register;
    state
}

pub fn cases() -> Vec<FirstCase> {
    let mut cases = Vec::new();
    let mut case = |name, text, before, nodes, ending| cases.push(FirstCase { name, text, before, nodes, ending });
    let (seven, rest) = (Ending::Answered(7), Ending::AtRest);
    let (idle, open, done) = ((IDLE, false, 0), (OPEN, false, 0), |value| (DONE, false, value));
    let (busy, inside, flagged) = ((BUSY, false, 0), (BUSY, true, 0), (OPEN, true, 0));

    // What a start leads to.
    let begun = started(BESIDE, &[7], &[]);
    case("parallel calls go one after the other", BESIDE, begun, &[2, 3, 4, 3, 1, 3, 5, 6, 5, 1, 5, 2], seven);
    let begun = started(BESIDE, &[7], &[2, 5, 6, 3, 4]);
    case("the lower of two waiting calls enters", BESIDE, begun, &[3, 1, 3, 5, 1, 5, 2], seven);
    let begun = started(BESIDE, &[7], &[2, 5, 6, 3, 4, 5]);
    case("a lower call waits until the higher one left", BESIDE, begun, &[1, 5, 3, 1, 3, 2], seven);
    let begun = started(THREE, &[7], &[2, 3, 4, 5, 6, 7, 8, 7]);
    case("the lower of two that are released", THREE, begun, &[1, 7, 3, 1, 3, 5, 1, 5, 2], seven);
    let all = &[4, 5, 6, 5, 2, 3, 2, 1, 2, 5, 7, 8, 7, 1, 7, 4];
    case("a body goes on before what is beside its call", HELD, started(HELD, &[7], &[]), all, seven);
    let begun = started(HELD, &[7], &[4, 5, 6, 7, 8, 7, 5, 2, 3]);
    case("a call in a body whose callee another holds", HELD, begun, &[1, 7, 2, 1, 2, 5, 4], seven);
    let all = &[1, 2, 1, 3, 4, 5, 4, 3, 1, 2, 1, 6, 1];
    case("a self call starts over", HALVED, started(HALVED, &[1], &[]), all, Ending::Answered(9));

    // What no start leads to.
    let state = standing(&[open, busy, inside, done(1), inside, done(2)], 8);
    case("two calls inside wait for one root", BESIDE, state, &[1, 3, 5, 2], Ending::Answered(8));
    let state = standing(&[done(8), busy, busy, done(6), inside, done(1), inside, done(2)], 0);
    case("two calls inside lose it to a third", THREE, state, &[3, 1, 3, 5, 7, 2], Ending::Answered(6));
    // Function 1 stays occupied, so that the body of function 2 never comes to its end again.
    let mut state = standing(&[idle, done(8), idle, busy, busy, done(6), inside, done(1)], 0);
    state.functions[0].occupant = Node(7);
    case("a call inside loses it for good", STUCK, state.clone(), &[5, 2, 3], rest);
    state.node_mut(Node(5)).second = true;
    case("two calls inside of a root that is done", STUCK, state, &[5, 7, 4], Ending::Answered(8));
    let state = standing(&[done(5), busy, flagged, idle, done(2), done(3)], 0);
    case("a flagged call leaves once it has begun", BESIDE, state, &[3, 3, 2], Ending::Answered(2));
    let state = standing(&[open, busy, flagged, idle, done(2), done(3)], 0);
    case("a flagged call waits for a root", BESIDE, state, &[1, 3, 3, 2], Ending::Answered(2));
    let state = standing(&[busy, busy, flagged, idle, done(2), done(3)], 0);
    case("a flagged call waits for a root that stays", BESIDE, state, &[3, 4], rest);
    let state = standing(&[inside, open, idle, done(6)], 0);
    case("an if whose other branch is done goes first", IF, state, &[1], Ending::Answered(6));
    let state = standing(&[inside, open, done(5), idle], 0);
    case("a condition done anew turns to the branch that is done", IF, state, &[2, 1], Ending::Answered(5));
    let state = standing(&[busy, inside, (OPEN, false, 7), idle, done(6)], 0);
    case("a condition done anew turns to the else branch", ELSE, state, &[3, 2, 1], Ending::Answered(6));
    let state = standing(&[inside, (OPEN, false, 1), idle, done(6)], 0);
    case("a condition done anew with the same value", IF, state, &[2], rest);
    let state = standing(&[done(3), done(1), busy, done(0), idle, inside, done(1)], 0);
    let all = &[3, 1, 2, 1, 5, 1, 6];
    case("a self call takes the step of a call inside", AGAIN, state, all, Ending::Answered(9));
    let state = standing(&[(BUSY, true, 4), done(1), done(2), idle, flagged, busy, done(1)], 0);
    case(
        "a call enters a body that is under way",
        AGAIN,
        state,
        &[1, 5, 6, 1, 2, 1, 3, 4, 3, 1, 2, 1, 5, 1, 6],
        Ending::Answered(9),
    );
    cases
}
