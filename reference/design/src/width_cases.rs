//! Designs of narrow functions with what they come to, and single steps in states that no start leads to.

use numbers::{BUSY, DONE, OPEN};

use crate::circuit::{NodeState, State};
use crate::table::Node;

/// A design, main's arguments, its value and the steps it takes.
pub type Case = (&'static str, &'static [u32], u32, u32);

const ONE_BIT: &str = "fun main(x, y): 1 = add(x, y)";
const LOOP: &str = "fun main(x, n): 4 = if x then main(add(x, 1), add(n, 1)) else n";
const BACK: &str = "fun main(x, n): 4 = if equal(n, 3) then x else main(sub(x, 1), add(n, 1))";
const LET: &str = "fun main(x): 4 = let a = add(x, 15), b = x in if a then add(a, b) else 7";

pub const CASES: [Case; 44] = [
    ("fun main(x, y): 4 = add(x, y)", &[9, 9], 2, 4),
    ("fun main(x, y): 4 = sub(x, y)", &[0, 1], 15, 4),
    ("fun main(): 4 = add(9, 9)", &[], 2, 4),
    ("fun main(): 4 = sub(0, 1)", &[], 15, 4),
    ("fun main(x): 4 = double(x)", &[9], 2, 3),
    ("fun main(x, y): 4 = and(x, y)", &[0x1f, 0xf3], 3, 4),
    ("fun main(x, y): 4 = or(x, y)", &[0x12, 0xf8], 10, 4),
    ("fun main(x, y): 4 = xor(x, y)", &[0x1f, 0xf3], 12, 4),
    // Halve, equal and less tell whether main's arguments were cut before.
    ("fun main(x): 4 = halve(x)", &[17], 0, 3),
    ("fun main(x, y): 4 = equal(x, y)", &[1, 17], 1, 4),
    ("fun main(x, y): 4 = less(x, y)", &[15, 16], 0, 4),
    ("fun main(x): 4 = lowbit(x)", &[0xfff], 1, 3),
    ("fun main(x): 4 = beside(x)", &[0xffa], 10, 3),
    ("fun main(x): 4 = x", &[25], 9, 1),
    ("fun main(): 4 = 15", &[], 15, 1),
    // The ends of what a width can be; 0 and 32 are the same.
    ("fun main(x, y) = add(x, y)", &[9, 9], 18, 4),
    ("fun main(x, y) = add(x, y)", &[u32::MAX, 2], 1, 4),
    ("fun main(x, y): 32 = add(x, y)", &[u32::MAX, 2], 1, 4),
    ("fun main(x, y): 32 = sub(x, y)", &[0, 1], u32::MAX, 4),
    ("fun main(x): 32 = x", &[u32::MAX], u32::MAX, 1),
    ("fun main(x): 31 = x", &[u32::MAX], 0x7fff_ffff, 1),
    ("fun main(x, y): 31 = add(x, y)", &[0x7fff_ffff, 1], 0, 4),
    (ONE_BIT, &[1, 1], 0, 4),
    (ONE_BIT, &[2, 5], 1, 4),
    ("fun main(x, y): 1 = sub(x, y)", &[0, 1], 1, 4),
    ("fun main(x): 1 = double(x)", &[u32::MAX], 0, 3),
    // A narrow caller of a wide function: its answer is cut on leaving, and nothing inside is.
    ("fun f(x) = add(x, 250)  fun main(x): 4 = f(x)", &[9], 3, 8),
    ("fun f(x) = halve(add(x, 250))  fun main(x): 4 = f(x)", &[9], 1, 10),
    ("fun f(): 8 = 0xab  fun main(): 4 = f()", &[], 0xb, 4),
    ("fun f(): 8 = 0xab  fun main(): 4 = halve(f())", &[], 5, 6),
    // A wide caller of a narrow one: arguments are cut on entry, and the answer has room.
    ("fun f(x): 4 = x  fun main(x) = f(x)", &[0x123], 3, 5),
    ("fun f(x): 4 = halve(x)  fun main(x) = f(x)", &[0x13], 1, 7),
    ("fun f(x): 4 = add(x, 9)  fun main(x) = add(f(x), 100)", &[25], 102, 11),
    ("fun f(x, y): 4 = less(x, y)  fun main(x): 8 = f(x, 15)", &[0x1f], 0, 9),
    // Three widths, in each order.
    ("fun f(x): 8 = x  fun g(x): 4 = f(x)  fun main(x) = g(x)", &[0xabcd], 0xd, 9),
    ("fun f(x): 4 = x  fun g(x): 8 = f(x)  fun main(x) = g(x)", &[0xabcd], 0xd, 9),
    ("fun f(): 16 = 0xabcd  fun g(): 4 = f()  fun main(): 8 = g()", &[], 0xd, 7),
    ("fun f(): 16 = 0xabcd  fun g(): 8 = f()  fun main(): 4 = halve(g())", &[], 6, 9),
    // Self calls that wrap.
    (LOOP, &[9, 0], 7, 96),
    (LOOP, &[3, 13], 10, 174),
    (BACK, &[1, 0], 14, 56),
    ("fun f(x): 2 = if x then f(add(x, 1)) else 3  fun main(x) = f(x)", &[0x55], 3, 36),
    // Names are bound to what was kept.
    (LET, &[1], 7, 13),
    (LET, &[0x22], 3, 16),
];

/// A step at a node and the states around it.
pub struct Standing {
    pub text: &'static str,
    pub before: State,
    pub node: u16,
    pub after: State,
}

/// A state with these first nodes, and after the step the one asked at as given.
fn standing(text: &'static str, node: u16, nodes: &[(u8, bool, u32)], after: (u8, bool, u32)) -> Standing {
    let entry = |(status, second, value): (u8, bool, u32)| NodeState { status, second, value };
    let mut before = State::zero();
    for (state, given) in before.nodes.iter_mut().zip(nodes) {
        *state = entry(*given);
    }
    let mut wanted = before.clone();
    wanted.nodes[usize::from(node) - 1] = entry(after);
    Standing { text, before, node, after: wanted }
}

impl Standing {
    /// The first register of a function before and after.
    fn register(mut self, function: usize, before: u32, after: u32) -> Standing {
        self.before.functions[function - 1].registers[0] = before;
        self.after.functions[function - 1].registers[0] = after;
        self
    }

    fn occupant(mut self, function: usize, before: u16, after: u16) -> Standing {
        self.before.functions[function - 1].occupant = Node(before);
        self.after.functions[function - 1].occupant = Node(after);
        self
    }

    /// A node that changes beside the one asked at.
    fn other(mut self, node: usize, after: NodeState) -> Standing {
        self.after.nodes[node - 1] = after;
        self
    }
}

/// A node that was opened by a reset.
const OPENED: NodeState = NodeState { status: OPEN, second: false, value: 0 };
const IDLE: NodeState = NodeState { status: numbers::IDLE, second: false, value: 0 };

/// One operation on a wide operand, or on two: worked out on all bits and then cut.
fn operation(text: &'static str, operands: &[u32], value: u32) -> Standing {
    let mut nodes = vec![(BUSY, false, 0)];
    nodes.extend(operands.iter().map(|operand| (DONE, false, *operand)));
    standing(text, 1, &nodes, (DONE, false, value))
}

pub fn standings() -> Vec<Standing> {
    let done = |value: u32| (DONE, false, value);
    // What passes as it is: 1 let, 2 definiens, 3 bound; 1 if, 2 to 4 its parts.
    let bound = "fun main(): 4 = let a = 1 in a";
    let choice = "fun main(): 4 = if 1 then 2 else 3";
    // 1 the callee's parameter, 2 the call, 3 its argument.
    let narrower = "fun f(x): 4 = x  fun main(x): 8 = f(x)";
    let wider = "fun f(x): 8 = x  fun main(x): 4 = f(x)";
    let all_bits = "fun f(x) = x  fun main(x): 4 = f(x)";
    let enters = |text, register| {
        let nodes = [done(7), (BUSY, false, 0), done(0x1234)];
        let entered = standing(text, 2, &nodes, (BUSY, true, 0)).other(1, OPENED);
        entered.register(1, 0xffff, register).occupant(1, 0, 2)
    };
    let leaves = |text, value| {
        let nodes = [done(0x1234), (BUSY, true, 0), done(5)];
        standing(text, 2, &nodes, done(value)).occupant(1, 2, 0)
    };
    let again = |text, register| {
        let nodes = [(BUSY, true, 9), done(0x1234)];
        standing(text, 1, &nodes, (OPEN, false, 0)).other(2, IDLE).register(1, 0xffff, register)
    };
    vec![
        standing("fun main(x): 4 = x", 1, &[(OPEN, false, 0)], done(0x123)).register(1, 0x123, 0x123),
        standing("fun main(x): 1 = x", 1, &[(OPEN, true, 3)], done(u32::MAX)).register(1, u32::MAX, u32::MAX),
        standing(bound, 3, &[(BUSY, true, 0), done(0x99), (OPEN, false, 0)], done(0x99)),
        standing(bound, 1, &[(BUSY, true, 0), done(1), done(0x99)], done(0x99)),
        standing(choice, 1, &[(BUSY, true, 0), done(16), done(0x77), done(0)], done(0x77)),
        standing(choice, 1, &[(BUSY, true, 0), done(0), done(0), done(0x88)], done(0x88)),
        // A condition of 16 is not 0, though its lowest 4 bits are.
        standing(choice, 1, &[(BUSY, false, 0), done(16)], (BUSY, true, 0)).other(3, OPENED),
        operation("fun main(x): 4 = halve(x)", &[0x1f], 15),
        operation("fun main(x): 4 = halve(x)", &[0x20], 0),
        operation("fun main(x): 4 = beside(x)", &[0x23], 3),
        operation("fun main(x, y): 4 = beside(x, y)", &[0x23, 0x45], 5),
        operation("fun main(x, y): 4 = equal(x, y)", &[1, 17], 0),
        operation("fun main(x, y): 4 = less(x, y)", &[15, 16], 1),
        operation("fun main(x, y): 4 = less(x, y)", &[16, 15], 0),
        operation("fun main(x, y): 4 = add(x, y)", &[0x19, 0x29], 2),
        operation("fun main(x, y): 4 = sub(x, y)", &[0x10, 0x21], 15),
        operation("fun main(x, y): 4 = or(x, y)", &[0x12, 0x24], 6),
        operation("fun main(x, y): 1 = xor(x, y)", &[0x12, 0x25], 1),
        operation("fun main(x): 31 = double(x)", &[u32::MAX], 0x7fff_fffe),
        operation("fun main(x): 32 = double(x)", &[u32::MAX], 0xffff_fffe),
        operation("fun main(x) = halve(x)", &[u32::MAX], 0x7fff_ffff),
        enters(narrower, 4),
        enters(wider, 0x34),
        enters(all_bits, 0x1234),
        leaves(narrower, 0x34),
        leaves(wider, 4),
        leaves(all_bits, 4),
        leaves("fun f(x): 4 = x  fun main(x) = f(x)", 0x1234),
        again("fun main(x): 4 = main(x)", 4),
        again("fun main(x): 8 = main(x)", 0x34),
        again("fun main(x): 32 = main(x)", 0x1234),
        again("fun main(x) = main(x)", 0x1234),
    ]
}
