//! Random tag lists, arguments and states, among them states that no start leads to.

use numbers::{BUSY, DONE, OPEN};

use crate::circuit::{NodeState, State};
use crate::list::{arbiter_list, tag_bytes, Calls};
use crate::random::Random;
use crate::table::{Function, Node};
use crate::tree::{Kind, Tree};

/// Arguments for main.
pub fn arguments(random: &mut Random, tree: &Tree) -> Vec<u32> {
    (0..tree.parameters(tree.main())).map(|_| random.word()).collect()
}

/// Every call that may have a tag.
pub fn every_call(tree: &Tree) -> Calls {
    tree.nodes().filter(|node| tree.other_callee(*node).is_some()).collect()
}

/// A tag list that is in order: the arbiter list, none, every call, or any calls.
pub fn tags(random: &mut Random, tree: &Tree) -> Vec<u8> {
    let calls = every_call(tree);
    let marked = match random.below(4) {
        0 => arbiter_list(tree),
        1 => Calls::new(),
        2 => calls,
        _ => calls.into_iter().filter(|_| random.once_in(2)).collect(),
    };
    tag_bytes(tree, &marked)
}

/// Calls to tag: the arbiter list, and none, some or all of the others, also of those that main doesn't reach.
fn holding(random: &mut Random, tree: &Tree) -> Calls {
    let mut marked = arbiter_list(tree);
    match random.below(4) {
        0..=1 => {}
        2 => marked.extend(every_call(tree)),
        _ => marked.extend(every_call(tree).into_iter().filter(|_| random.once_in(2))),
    }
    marked
}

/// A tag list with which a start is possible: it holds the arbiter list.
pub fn holding_tags(random: &mut Random, tree: &Tree) -> Vec<u8> {
    let marked = holding(random, tree);
    tag_bytes(tree, &marked)
}

/// A tag list that is in order and misses one, several or all calls of the arbiter list; none where the list is empty.
pub fn missing_tags(random: &mut Random, tree: &Tree) -> Option<Vec<u8>> {
    let list: Vec<Node> = arbiter_list(tree).into_iter().collect();
    if list.is_empty() {
        return None;
    }
    let mut marked = holding(random, tree);
    marked.remove(&random.pick(&list));
    match random.below(4) {
        0..=1 => {}
        2 => marked.retain(|call| !list.contains(call) || random.once_in(2)),
        _ => marked.retain(|call| !list.contains(call)),
    }
    Some(tag_bytes(tree, &marked))
}

/// A tag list with a fault: another length, a bit past N, or a bit at some node; by chance it may be in order. In half
/// of them some of the arbiter list is missing besides, if there is one.
pub fn damaged_tags(random: &mut Random, tree: &Tree) -> Vec<u8> {
    let missing = if random.once_in(2) { missing_tags(random, tree) } else { None };
    let mut bytes = missing.unwrap_or_else(|| tags(random, tree));
    match random.below(5) {
        0 => bytes.push(0),
        1 => {
            bytes.pop();
        }
        2 => {
            let last = bytes.len() - 1;
            bytes[last] |= 0x80;
        }
        _ => {
            let at = random.below(bytes.len());
            bytes[at] |= 1 << random.below(8);
        }
    }
    bytes
}

/// Any state that 24 lets pass; entries past F and N hold anything.
pub fn any_state(random: &mut Random, tree: &Tree) -> State {
    let mut state = State::zero();
    let node_count = tree.node_count();
    // Done nodes and busy calls are frequent: else hardly a call comes to enter or to wait. Other nodes with children
    // are often busy too: else few of them go on with wide values.
    let done_share = random.within(1, 9);
    let free_share = random.within(0, 3);
    // In half of the states there are values that a narrow function would not come to.
    let wide = random.once_in(2);
    for (index, node) in state.nodes.iter_mut().enumerate() {
        let status = match random.below(done_share + 3) {
            chosen @ 0..=2 => chosen as u8,
            _ => DONE,
        };
        let value = if wide && random.once_in(2) { random.word() } else { random.below(3) as u32 };
        *node = NodeState { status, second: random.once_in(2), value };
        if index >= node_count {
            node.status = random.number() as u8;
        }
    }
    for node in tree.nodes() {
        let is_call = tree.other_callee(node).is_some();
        if is_call && random.once_in(2) || !tree.children(node).is_empty() && random.once_in(3) {
            state.node_mut(node).status = BUSY;
        }
    }
    let main_root = tree.root(tree.main());
    if state.node(main_root).status == DONE && !random.once_in(8) {
        state.node_mut(main_root).status = random.pick(&[OPEN, BUSY]);
    }
    for (index, function) in state.functions.iter_mut().enumerate() {
        function.registers = std::array::from_fn(|_| random.word());
        function.occupant = match random.below(4) {
            chosen if chosen <= free_share => Node(0),
            _ => Node(random.within(1, node_count) as u16),
        };
        if index >= tree.function_count() {
            function.occupant = Node(random.number() as u16);
        }
    }
    state
}

/// Fills the entries past F and N with anything. No step looks at them.
pub fn fill_past(random: &mut Random, tree: &Tree, state: &mut State) {
    let noise = any_state(random, tree);
    state.nodes[tree.node_count()..].copy_from_slice(&noise.nodes[tree.node_count()..]);
    state.functions[tree.function_count()..].copy_from_slice(&noise.functions[tree.function_count()..]);
}

/// Any state, in which more ifs are in second phase while their condition is open, and more open calls have the flag.
pub fn odd_state(random: &mut Random, tree: &Tree) -> State {
    let mut state = any_state(random, tree);
    for node in tree.nodes() {
        match tree.kind(node) {
            Kind::If if random.once_in(2) => {
                let children = tree.children(node);
                state.node_mut(node).status = BUSY;
                state.node_mut(node).second = true;
                state.node_mut(children[0]).status = OPEN;
                state.node_mut(random.pick(&children[1..])).status = DONE;
            }
            Kind::Call(_) if random.once_in(4) => {
                state.node_mut(node).status = OPEN;
                state.node_mut(node).second = true;
            }
            _ => {}
        }
    }
    state
}

/// Makes a state that 24 turns back.
pub fn damage_state(random: &mut Random, tree: &Tree, state: &mut State) {
    if random.once_in(2) {
        let node = Node(random.within(1, tree.node_count()) as u16);
        state.node_mut(node).status = random.within(4, 255) as u8;
    } else {
        let function = Function(random.within(1, tree.function_count()) as u16);
        state.function_mut(function).occupant = Node(random.within(tree.node_count() + 1, 65535) as u16);
    }
}
