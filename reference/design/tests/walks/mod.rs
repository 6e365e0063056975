//! Every state that a start leads to by steps in any order, and designs small enough for that.

use std::collections::HashSet;

use design::asm::assemble;
use design::circuit::{possible, start, step_with, FunctionState, NodeState, State};
use design::difference::{unrefused, Outcome};
use design::examples;
use design::list::tags_of;
use design::pair_cases::DESIGNS;
use design::reach_cases::CASES;
use design::Tree;

/// States that a walk through a named design looks at; all of them have fewer.
pub const MOST_NAMED: usize = 20_000;

/// Examples of no more nodes are walked through.
const SMALL: usize = 40;

/// The entries of a state up to N and F; past them nothing ever changes.
pub type Short = (Vec<NodeState>, Vec<FunctionState>);

pub fn short(tree: &Tree, state: &State) -> Short {
    (state.nodes[..tree.node_count()].to_vec(), state.functions[..tree.function_count()].to_vec())
}

/// States that steps in any order lead to, and whether these are all.
pub struct Walk {
    pub found: HashSet<Short>,
    pub is_all: bool,
}

/// Visits every state that a start leads to, up to so many. The start has these tags and the list; the steps have these
/// tags alone.
pub fn walk(
    bytes: &[u8],
    tags: &[u8],
    arguments: &[u32],
    most: usize,
    mut visit: impl FnMut(&Tree, &State) -> Outcome,
) -> Result<Walk, String> {
    let tree = unrefused(Tree::read(bytes), bytes)?;
    let list = unrefused(tags_of(bytes), bytes)?;
    let holding: Vec<u8> = list.iter().zip(tags).map(|(listed, tagged)| listed | tagged).collect();
    let mut state = State::zero();
    unrefused(start(bytes, &holding, arguments, &mut state), bytes)?;
    let mut found = HashSet::from([short(&tree, &state)]);
    let mut due = vec![state];
    let mut is_all = true;
    while let Some(state) = due.pop() {
        visit(&tree, &state)?;
        for node in possible(&tree, tags, &state) {
            let mut next = state.clone();
            step_with(&tree, tags, &mut next, node.0);
            let next_short = short(&tree, &next);
            if found.contains(&next_short) {
                continue;
            }
            if found.len() == most {
                is_all = false;
                continue;
            }
            found.insert(next_short);
            due.push(next);
        }
    }
    Ok(Walk { found, is_all })
}

/// A table and main's arguments.
pub type Begin = (Vec<u8>, Vec<u32>);

/// Designs small enough for all of their states.
pub fn small_designs() -> Result<Vec<Begin>, String> {
    let mut found = Vec::new();
    for (text, arguments) in DESIGNS {
        found.push((assemble(text).map_err(|error| format!("{text}: {error:?}"))?, arguments.to_vec()));
    }
    let examples = examples::tables()?.into_iter().chain(CASES.iter().map(|case| case.bytes()));
    for bytes in examples {
        let Ok(tree) = Tree::read(&bytes) else {
            continue;
        };
        if tree.node_count() <= SMALL {
            for argument in [0, 1, 5] {
                found.push((bytes.clone(), vec![argument; tree.parameters(tree.main())]));
            }
        }
    }
    Ok(found)
}
