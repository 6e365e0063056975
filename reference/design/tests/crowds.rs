//! The designs with very many calls under way at once are what they promise to be.

use design::circuit::{first, run_traced, start, step_with, Ending, NodeState, State};
use design::crowds::{callers, chain, CROWD};
use design::list::tags_of;
use design::reading::read;
use design::{Function, Tree};
use numbers::{BUSY, DONE};

/// Follows the first steps to the answer, and tells the steps and the most calls of function 1 that were at once busy
/// in first phase, and that waited with their arguments done.
fn crowded(bytes: &[u8], arguments: &[u32]) -> (u64, usize, usize) {
    let tree = Tree::read(bytes).expect("an accepted table");
    let tags = tags_of(bytes).expect("an accepted table");
    let mut state = State::zero();
    start(bytes, &tags, arguments, &mut state).expect("a start");
    let (nodes, ending) = run_traced(bytes, &tags, &mut state.clone(), u32::MAX).expect("a run");
    let reading = read(&tree, arguments, nodes.len() as u64).expect("it ends");
    assert_eq!((ending, nodes.len() as u64), (Ending::Answered(reading.value), reading.count));
    let (mut most_busy, mut most_waiting) = (0, 0);
    for node in nodes {
        assert_eq!(first(&tree, &tags, &state), Some(node));
        step_with(&tree, &tags, &mut state, node.0);
        let begun = |entry: &NodeState| entry.status == BUSY && !entry.second;
        let calls = tree.nodes().filter(|node| tree.other_callee(*node) == Some(Function(1)));
        let busy: Vec<_> = calls.filter(|node| begun(state.node(*node))).collect();
        let is_done = |node| state.node(node).status == DONE;
        let waiting = busy.iter().filter(|node| tree.children(**node).iter().all(|child| is_done(*child)));
        (most_busy, most_waiting) = (most_busy.max(busy.len()), most_waiting.max(waiting.count()));
    }
    (reading.count, most_busy, most_waiting)
}

#[test]
fn callers_all_wait_at_once() {
    let (steps, busy, waiting) = crowded(&callers(), &[2]);
    assert_eq!((busy, waiting), (CROWD - 1, CROWD - 1));
    assert!(steps > 2 * 4 * CROWD as u64, "{steps}");
}

#[test]
fn a_chain_begins_as_a_whole() {
    let (steps, busy, waiting) = crowded(&chain(), &[2, 9]);
    assert_eq!((busy, waiting), (CROWD, 1));
    assert!(steps > 2 * 4 * CROWD as u64, "{steps}");
}
