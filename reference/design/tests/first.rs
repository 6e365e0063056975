//! The first possible step: the query names it, and the run on a budget takes it again and again.

use design::circuit::{check_state, first, query, run_budget, run_list, run_traced, start, step_with};
use design::circuit::{Answer, Ending, State};
use design::difference::Outcome;
use design::first_cases::cases;
use design::first_kinds::{first_kinds, ASTRAY, ENABLED, MOVES, NEVER, PICKED};
use design::generator::{accepted_of, accepted_sharing_of};
use design::kinds::Kinds;
use design::random::Random;
use design::states::{any_state, arguments, holding_tags, odd_state, tags};
use design::{Node, Tree};
use numbers::DONE;

/// Each prefix is the run on a smaller budget, and the query names what comes next.
#[test]
fn named_states() {
    for case in cases() {
        let (name, (bytes, tags)) = (case.name, case.table());
        let count = case.nodes.len() as u32;
        let nodes: Vec<Node> = case.nodes.iter().copied().map(Node).collect();
        let mut state = case.before.clone();
        assert_eq!(run_traced(&bytes, &tags, &mut state, count + 1), Ok((nodes.clone(), case.ending)), "{name}");
        let mut state = case.before.clone();
        for (taken, node) in nodes.iter().enumerate() {
            assert_eq!(query(&bytes, &tags, &state), Ok(Some(*node)), "{name}");
            let mut other = case.before.clone();
            let told = run_traced(&bytes, &tags, &mut other, taken as u32);
            assert_eq!(told, Ok((nodes[..taken].to_vec(), Ending::Spent)), "{name}");
            assert!(other == state, "{name}");
            assert_eq!(run_list(&bytes, &tags, &mut state, &[node.0]), Ok((1, None)), "{name}");
        }
        assert_eq!(query(&bytes, &tags, &state), Ok(None), "{name}");
        assert_eq!(run_budget(&bytes, &tags, &mut state, 0), Ok((0, case.ending)), "{name}");
    }
}

/// The first by the rules: the lowest number at which a step isn't refused.
fn lowest(tree: &Tree, tags: &[u8], state: &State) -> Option<Node> {
    let is_taken = |node: &u16| !matches!(step_with(tree, tags, &mut state.clone(), *node), Answer::Refused(_));
    (0..=tree.node_count() as u16 + 1).find(is_taken).map(Node)
}

/// Follows the first steps and counts what they do; the run on a budget comes to the same nodes and the same state.
fn follow(kinds: &mut Kinds, bytes: &[u8], tags: &[u8], begun: &State, budget: u32) -> usize {
    let tree = Tree::read(bytes).expect("an accepted table");
    let mut run = begun.clone();
    let (nodes, ending) = run_traced(bytes, tags, &mut run, budget).expect("a run");
    let mut state = begun.clone();
    for node in &nodes {
        assert_eq!((lowest(&tree, tags, &state), first(&tree, tags, &state)), (Some(*node), Some(*node)));
        let before = state.clone();
        step_with(&tree, tags, &mut state, node.0);
        kinds.note(first_kinds(&tree, tags, &before, *node, &state));
    }
    assert!(run == state && check_state(&tree, &state).is_ok());
    let at_end = lowest(&tree, tags, &state);
    assert_eq!(query(bytes, tags, &state), Ok(at_end));
    let root = state.node(tree.root(tree.main()));
    match ending {
        Ending::Answered(value) => assert_eq!((root.status, root.value, at_end), (DONE, value, None)),
        Ending::AtRest => assert!(at_end.is_none() && root.status != DONE),
        Ending::Spent => assert!(at_end.is_some() && nodes.len() == budget as usize),
    }
    nodes.len()
}

fn some_table(random: &mut Random) -> Vec<u8> {
    let nodes = random.within(1, 90);
    match random.once_in(3) {
        true => accepted_of(random, nodes),
        false => accepted_sharing_of(random, nodes.max(12)),
    }
}

#[test]
fn first_steps_from_a_start() -> Outcome {
    let (mut random, mut kinds) = (Random::new(31), Kinds::default());
    for _ in 0..1500 {
        let bytes = some_table(&mut random);
        let tree = Tree::read(&bytes).expect("an accepted table");
        let tags = tags(&mut random, &tree);
        let mut state = State::zero();
        let arguments = arguments(&mut random, &tree);
        start(&bytes, &holding_tags(&mut random, &tree), &arguments, &mut state).expect("a start");
        // Some steps in any order before, so that calls meet.
        for _ in 0..random.below(60) {
            step_with(&tree, &tags, &mut state, random.within(1, tree.node_count()) as u16);
        }
        follow(&mut kinds, &bytes, &tags, &state, 150);
    }
    kinds.often(&[&MOVES[..], &PICKED, &ENABLED].concat(), 20)?;
    kinds.never(&[&ASTRAY[..], &NEVER].concat())
}

#[test]
fn first_steps_from_any_state() -> Outcome {
    let (mut random, mut kinds) = (Random::new(32), Kinds::default());
    let mut long = 0;
    for _ in 0..4000 {
        let bytes = some_table(&mut random);
        let tree = Tree::read(&bytes).expect("an accepted table");
        let tags = tags(&mut random, &tree);
        let state = random.pick(&[any_state, odd_state])(&mut random, &tree);
        long += usize::from(follow(&mut kinds, &bytes, &tags, &state, 60) > 20);
    }
    assert!(long > 500, "{long}");
    kinds.often(&[&MOVES[..], &PICKED, &ENABLED, &ASTRAY].concat(), 20)?;
    kinds.never(&NEVER)
}
