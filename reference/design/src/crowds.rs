//! Designs in which very many calls are under way at once, in loops that go on for as long as a run is to be.

use std::collections::VecDeque;

use numbers::{BESIDE, CALL, CONSTANT, IF, PARAMETER, PRIMITIVE, SUBTRACT};

use crate::asm::assemble;
use crate::draft::{Draft, Head};

/// Calls under way at once.
pub const CROWD: usize = 250;

/// Children of a beside.
const ARMS: usize = 8;

/// main(n) = if n then main(beside(f(), .., f(), sub(n, 1))) else 0, with 250 calls. A beside has eight children, so
/// they are below a tree of besides; they have no arguments, since with one each they would not fit into a table. The
/// number of f's one node is the highest, so that all calls have begun, and wait, before f goes on: at every entering
/// and leaving there are up to 249 others.
pub fn callers() -> Vec<u8> {
    let mut draft = Draft::default();
    let f = draft.add(CONSTANT, 0, 1);
    let root = draft.add(IF, 0, 0);
    let condition = draft.add(PARAMETER, 0, 0);
    let again = draft.add(CALL, 0, 2);
    let top = draft.add(PRIMITIVE, BESIDE, 0);
    // Places below besides, of which each further one takes one and gives eight.
    let mut places = VecDeque::from(vec![top; ARMS - 1]);
    while places.len() < CROWD {
        let beside = below(&mut draft, &mut places, PRIMITIVE, BESIDE, 0);
        places.extend([beside; ARMS]);
    }
    for _ in 0..CROWD {
        below(&mut draft, &mut places, CALL, 0, 1);
    }
    let less = draft.add(PRIMITIVE, SUBTRACT, 0);
    let operands = vec![draft.add(PARAMETER, 0, 0), draft.add(CONSTANT, 0, 1)];
    draft.items[less].children = operands;
    draft.items[top].children.push(less);
    draft.items[again].children = vec![top];
    let otherwise = draft.add(CONSTANT, 0, 0);
    draft.items[root].children = vec![condition, again, otherwise];
    draft.functions = vec![Head::new(0, f), Head::new(1, root)];
    last_first(&draft)
}

/// Adds a node at the first place.
fn below(draft: &mut Draft, places: &mut VecDeque<usize>, kind: u8, extra: u8, word: u32) -> usize {
    let node = draft.add(kind, extra, word);
    let holder = places.pop_front().expect("a place");
    draft.items[holder].children.push(node);
    node
}

/// The table with the node that was added first numbered last; the others keep their order.
fn last_first(draft: &Draft) -> Vec<u8> {
    let nodes = draft.items.len() as u16;
    let numbers: Vec<u16> = (0..nodes).map(|index| if index == 0 { nodes } else { index }).collect();
    draft.bytes_with(&numbers)
}

/// main(n, x) = if n then main(sub(n, 1), f(f(.. f(x)))) else x, with 250 calls one in another. There are 32 functions
/// at most, so a chain of so many is one of arguments: all of its calls have begun before the innermost enters.
pub fn chain() -> Vec<u8> {
    let calls = "f(".repeat(CROWD) + "x" + &")".repeat(CROWD);
    let text = format!("fun f(x) = x  fun main(n, x) = if n then main(sub(n, 1), {calls}) else x");
    assemble(&text).expect("a text in order")
}
