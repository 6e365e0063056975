//! Steps in states that no start leads to: the rules to the letter.

use design::asm::assemble;
use design::circuit::{run_budget, step, Answer, Ending, FunctionState, NodeState, State};
use design::{Node, Refusal, Table};

fn table(text: &str) -> Vec<u8> {
    assemble(text).expect("a text in order")
}

fn node(status: u8, second: bool, value: u32) -> NodeState {
    NodeState { status, second, value }
}

/// Nodes 1, 2, .. as given, the rest idle.
fn state(nodes: &[NodeState]) -> State {
    let mut state = State::zero();
    state.nodes[..nodes.len()].copy_from_slice(nodes);
    state
}

fn no_tags(bytes: &[u8]) -> Vec<u8> {
    vec![0; usize::from(Table::new(bytes).node_count()).div_ceil(8)]
}

fn takes(bytes: &[u8], before: &State, asked: u16, wanted: &State) {
    let tags = no_tags(bytes);
    let mut after = before.clone();
    let answer = step(bytes, &tags, &mut after, asked);
    assert!(matches!(answer, Answer::Taken | Answer::Answered(_)), "{answer:?}");
    assert!(after == *wanted);
}

fn refuses(bytes: &[u8], before: &State, asked: u16, number: u16) {
    let tags = no_tags(bytes);
    let mut after = before.clone();
    assert_eq!(step(bytes, &tags, &mut after, asked), Answer::Refused(Refusal { number, place: Node(asked) }));
    assert!(after == *before);
}

/// Nodes 1 if; 2, 3, 4.
const IF: &str = "fun main() = if 1 then 2 else 3";

#[test]
fn a_second_phase_if_looks_at_the_branch_of_the_present_value() {
    let bytes = table(IF);
    let idle = node(0, false, 0);
    // The condition isn't done and its value is 0: the else branch counts, whatever the then branch is.
    let before = state(&[node(2, true, 9), node(1, false, 0), node(1, false, 5), node(3, false, 6)]);
    let after = state(&[node(3, false, 6), node(1, false, 0), node(1, false, 5), node(3, false, 6)]);
    takes(&bytes, &before, 1, &after);
    let before = state(&[node(2, true, 9), idle, node(3, false, 5), node(2, false, 6)]);
    refuses(&bytes, &before, 1, 21);
    let before = state(&[node(2, true, 9), node(0, false, 1), node(3, false, 5), idle]);
    let after = state(&[node(3, false, 5), node(0, false, 1), node(3, false, 5), idle]);
    takes(&bytes, &before, 1, &after);
    // Not in second phase the condition has to be done.
    refuses(&bytes, &state(&[node(2, false, 0), node(2, false, 1), node(3, false, 5), idle]), 1, 21);
}

#[test]
fn opening_alters_the_status_alone() {
    let bytes = table(IF);
    let before = state(&[node(2, false, 9), node(3, false, 1), node(3, true, 5), node(2, true, 6)]);
    let after = state(&[node(2, true, 9), node(3, false, 1), node(1, true, 5), node(2, true, 6)]);
    takes(&bytes, &before, 1, &after);
    let before = state(&[node(1, false, 9), node(2, true, 7)]);
    let after = state(&[node(2, false, 9), node(1, true, 7)]);
    takes(&bytes, &before, 1, &after);
}

#[test]
fn busy_keeps_the_flag_and_done_clears_it() {
    let bytes = table(IF);
    let before = state(&[node(1, true, 9), node(0, true, 7)]);
    let after = state(&[node(2, true, 9), node(1, true, 7)]);
    takes(&bytes, &before, 1, &after);
    let before = state(&[node(1, false, 9), node(1, true, 7)]);
    let after = state(&[node(1, false, 9), node(3, false, 1)]);
    takes(&bytes, &before, 2, &after);
    // A primitive doesn't look at the flag, and is done all the same.
    let bytes = table("fun main() = double(4)");
    takes(&bytes, &state(&[node(2, true, 0), node(3, true, 4)]), 1, &state(&[node(3, false, 8), node(3, true, 4)]));
}

#[test]
fn a_busy_leaf_has_no_step() {
    let bytes = table("fun main(x) = let a = 1 in beside(a, x, 2)");
    // 1 let, 2 definiens, 3 beside, 4 bound, 5 parameter, 6 constant.
    let before = state(&[
        node(2, false, 0),
        node(2, true, 1),
        node(2, false, 0),
        node(2, false, 1),
        node(2, true, 0),
        node(2, false, 2),
    ]);
    for asked in [2, 4, 5, 6] {
        refuses(&bytes, &before, asked, 21);
    }
    // An open bound takes its definiens as it stands, done or not.
    let mut before = before;
    before.nodes[3] = node(1, true, 0);
    before.nodes[1].value = 77;
    let mut after = before.clone();
    after.nodes[3] = node(3, false, 77);
    takes(&bytes, &before, 4, &after);
}

#[test]
fn a_self_call_ignores_flag_and_occupant() {
    let bytes = table("fun f(x) = f(x)  fun main() = f(1)");
    // 1 self call, 2 parameter, 3 call, 4 constant.
    let mut before = state(&[node(2, true, 3), node(3, true, 8), node(2, true, 1), node(3, false, 1)]);
    before.functions[0] = FunctionState { registers: [1, 2, 3, 4, 5, 6, 7, 8], occupant: Node(4) };
    let mut after = before.clone();
    after.nodes[0] = node(1, false, 0);
    after.nodes[1] = node(0, false, 0);
    after.functions[0].registers = [8, 0, 0, 0, 0, 0, 0, 0];
    takes(&bytes, &before, 1, &after);
}

#[test]
fn leaving_frees_whoever_the_occupant_was() {
    let bytes = table("fun f(x) = x  fun main() = beside(f(1), f(2))");
    // 1 parameter, 2 beside, 3 and 5 calls, 4 and 6 constants.
    let mut before =
        state(&[node(3, true, 4), node(2, false, 0), node(2, true, 0), node(1, true, 0), node(2, true, 0)]);
    before.functions[0].occupant = Node(6);
    let mut after = before.clone();
    after.nodes[4] = node(3, false, 4);
    after.functions[0].occupant = Node(0);
    takes(&bytes, &before, 5, &after);
    // Entering looks at the occupant, also where it is no call, and clears flags and values of the body.
    before.nodes[2] = node(2, false, 6);
    before.nodes[3] = node(3, true, 9);
    refuses(&bytes, &before, 3, 23);
    before.functions[0].occupant = Node(0);
    before.functions[0].registers = [5; 8];
    let mut after = before.clone();
    after.nodes[0] = node(1, false, 0);
    after.nodes[2] = node(2, true, 6);
    after.functions[0] = FunctionState { registers: [9, 0, 0, 0, 0, 0, 0, 0], occupant: Node(3) };
    takes(&bytes, &before, 3, &after);
}

#[test]
fn at_rest_before_spent() {
    let bytes = table(IF);
    let mut idle = State::zero();
    assert_eq!(run_budget(&bytes, &[0], &mut idle, 0), Ok((0, Ending::AtRest)));
    let mut stuck = state(&[node(2, true, 0), node(1, false, 0)]);
    // One step at the condition, then the busy if waits for a branch that never opens.
    assert_eq!(run_budget(&bytes, &[0], &mut stuck, 0), Ok((0, Ending::Spent)));
    assert_eq!(run_budget(&bytes, &[0], &mut stuck, 1), Ok((1, Ending::AtRest)));
    refuses(&bytes, &stuck, 1, 21);
}
