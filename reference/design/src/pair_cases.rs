//! Pairs of steps: designs in which much goes on at once, and states in which the order of two steps matters, worked out
//! by hand. Each of those lacks one thing that the rule asks for.

use numbers::{BUSY, DONE, IDLE, OPEN};

use crate::circuit::{Answer, NodeState, State};
use crate::first_cases::{listed, standing, started, AGAIN, BESIDE, ELSE, HELD, THREE};
use crate::table::{Node, Refusal};

/// Two self calls at once, each in its own body.
const LOOPS: &str = "fun f(x) = if x then f(halve(x)) else 1  fun g(x) = if x then g(sub(x, 1)) else 2
    fun main(x) = add(f(x), g(x))";

/// Nodes 1 halve; 2.
const HALF: &str = "fun main(x) = halve(x)";

/// Nodes 1 let; 2; 3 bound.
const NAME: &str = "fun main() = let a = 5 in a";

/// Nodes 1 if; 2; 3 self call, 4; 5; 6 beside; 7 call of f, 8.
const AGAIN_BESIDE: &str = "fun f(x) = if x then f(0) else 9  fun main() = beside(f(1))";

/// Designs with main's arguments, small enough to look at every state that they come to.
pub const DESIGNS: [(&str, &[u32]); 13] = [
    (BESIDE, &[7]),
    (THREE, &[7]),
    (HELD, &[7]),
    (AGAIN, &[]),
    (LOOPS, &[2]),
    ("fun f(x) = if x then f(0) else 9  fun main(x) = add(f(x), f(0))", &[1]),
    ("fun f(x) = x  fun g(x) = f(x)  fun main(x) = beside(g(x), g(x))", &[9]),
    // Calls without arguments, of different resources: from one body, from two, and with one that is shared.
    ("fun f() = 1  fun g() = 2  fun main() = add(f(), g())", &[]),
    ("fun f() = 1  fun g() = 2  fun h() = f()  fun i() = g()  fun main() = add(h(), i())", &[]),
    ("fun f() = 1  fun g() = add(f(), f())  fun main() = add(g(), f())", &[]),
    // Names and branches.
    ("fun f(x) = let a = x, b = x in add(a, b)  fun main(x) = let a = f(x), b = double(x) in beside(a, b, a)", &[3]),
    ("fun f(x) = if x then 1 else 2  fun g(x) = let a = x in a  fun main(x) = beside(f(x), g(x))", &[0]),
    // Results, arguments and answers that lose bits.
    ("fun f(x): 4 = add(x, 9)  fun g(x): 9 = double(x)  fun main(x): 3 = beside(f(x), g(double(x)))", &[7]),
];

/// A state, two nodes that each have a step in it, and what the steps answer: the first of the nodes before the second,
/// and the second before the first.
pub struct PairCase {
    pub name: &'static str,
    pub text: &'static str,
    pub before: State,
    pub nodes: [u16; 2],
    pub answers: [[Answer; 2]; 2],
    /// A node that isn't the same after both orders, and how it stands after each.
    pub apart: Option<(Node, [NodeState; 2])>,
    /// The one of `CAUSES` for which the order matters.
    pub cause: Option<&'static str>,
}

impl PairCase {
    /// Its table, and the arbiter list as tags.
    pub fn table(&self) -> (Vec<u8>, Vec<u8>) {
        listed(self.text)
    }

    fn apart(mut self, node: u16, ends: [Entry; 2]) -> PairCase {
        self.apart = Some((Node(node), ends.map(entry)));
        self
    }
}

const TAKEN: Answer = Answer::Taken;

const fn refused(number: u16, place: u16) -> Answer {
    Answer::Refused(Refusal { number, place: Node(place) })
}

/// A node's entry: status, flag and value.
type Entry = (u8, bool, u32);

const fn entry((status, second, value): Entry) -> NodeState {
    NodeState { status, second, value }
}

/// From a start, and no rivals, but one node and not two: it has no second step.
pub fn same_node() -> Vec<PairCase> {
    let case = |name, text, before, node: u16, answers| {
        let (nodes, answers) = ([node; 2], [answers; 2]);
        PairCase { name, text, before, nodes, answers, apart: None, cause: None }
    };
    let reads = started(BESIDE, &[7], &[2, 3]);
    let leaves = started(BESIDE, &[7], &[2, 3, 4, 3, 1]);
    let answers = started(NAME, &[], &[1, 2, 1, 3]);
    vec![
        case("a parameter is read once", BESIDE, reads, 4, [TAKEN, refused(21, 4)]),
        case("a call leaves once", BESIDE, leaves, 3, [TAKEN, refused(21, 3)]),
        case("main answers once", NAME, answers, 1, [Answer::Answered(5), refused(20, 1)]),
    ]
}

/// From a start, and two nodes, but rivals: whichever goes first is inside.
pub fn rivals() -> Vec<PairCase> {
    let case = |name, text, before, nodes: [u16; 2]| {
        let [one, other] = nodes;
        let answers = [[TAKEN, refused(22, other)], [TAKEN, refused(22, one)]];
        let case = PairCase { name, text, before, nodes, answers, apart: None, cause: None };
        case.apart(one, [(BUSY, true, 0), (BUSY, false, 0)])
    };
    let one_body = started(BESIDE, &[7], &[2, 3, 5, 4, 6]);
    let two_bodies = started(HELD, &[7], &[4, 5, 6, 5, 2, 3, 7, 8]);
    vec![
        case("two calls of one body", BESIDE, one_body, [3, 5]),
        case("a call in main and one in a body that main called", HELD, two_bodies, [2, 7]),
    ]
}

/// Two nodes, and no rivals, but a state that no start leads to.
pub fn astray() -> Vec<PairCase> {
    let (idle, open, done) = ((IDLE, false, 0), (OPEN, false, 0), |value| (DONE, false, value));
    let (busy, inside) = ((BUSY, false, 0), (BUSY, true, 0));
    // Either order is possible, with the same answers, or only the second before the first.
    let (both, turned) = ([[TAKEN; 2]; 2], |place| [[TAKEN, refused(21, place)], [TAKEN; 2]]);
    let answering = [[TAKEN, Answer::Answered(5)], [Answer::Answered(5), refused(20, 1)]];
    let case = |cause, name, text, before, nodes, answers| PairCase {
        name,
        text,
        before,
        nodes,
        answers,
        apart: None,
        cause: Some(cause),
    };
    let occupied = |mut state: State, occupant| {
        state.functions[0].occupant = Node(occupant);
        state
    };

    let below = "one is below the other";
    let state = standing(&[open, open], 6);
    let opened = case(below, "a holder opens a child that was done", HALF, state, [1, 2], both);
    let state = standing(&[busy, inside, (OPEN, false, 7), done(2), done(3)], 0);
    let passed = case(below, "an if has its value before its condition", ELSE, state, [2, 3], both);

    let reads = "one reads the name that the other makes";
    let state = standing(&[inside, open, open], 0);
    let read = case(reads, "a name is read before it is made", NAME, state, [2, 3], both);

    let resets = "one resets the body of the other";
    let state = standing(&[open, busy, busy, done(6), open], 8);
    let entered = case(resets, "a call enters a body that is under way", BESIDE, state, [1, 3], both);
    let state = occupied(standing(&[inside, done(1), busy, done(0), open, inside, done(1)], 1), 6);
    let undone = case(resets, "a self call takes the other branch back", AGAIN, state, [3, 5], turned(5));

    let resets_left = "one resets what the other leaves";
    let state = standing(&[done(8), busy, busy, done(6), inside, done(2)], 0);
    let lost = case(resets_left, "a call enters what another leaves", BESIDE, state, [3, 5], turned(5));
    let state = occupied(standing(&[done(3), done(1), busy, done(0), idle, busy, inside, done(1)], 1), 7);
    let restarted =
        case(resets_left, "a self call restarts what a call leaves", AGAIN_BESIDE, state, [3, 7], turned(7));

    let state = standing(&[open, busy, done(4), idle, done(5)], 8);
    let late = case("one answers for main", "main answers before the other", BESIDE, state, [1, 2], answering);

    vec![
        opened.apart(2, [done(6), (OPEN, false, 6)]),
        passed.apart(2, [done(2), done(3)]),
        read.apart(3, [done(5), done(0)]),
        entered.apart(1, [open, done(6)]),
        // Its ends are the same, but not its answers.
        undone,
        lost.apart(5, [inside, done(8)]),
        restarted.apart(7, [inside, done(3)]),
        late.apart(1, [done(8), open]),
    ]
}
