//! Two steps in either order: from a start it matters for rivals alone.

mod walks;

use std::collections::HashSet;

use design::circuit::{step, step_with, Answer, State};
use design::difference::{ensure, unrefused, Outcome};
use design::generator::{accepted_of, accepted_sharing_of};
use design::kinds::Kinds;
use design::list::tags_of;
use design::pair_cases::{astray, rivals, same_node, PairCase};
use design::pair_kinds::{CAUSES, HARMLESS, HIGH, MOVES_BESIDE, PLACED, RIVALS};
use design::pairs::{every_pair, Moment, Pair};
use design::random::Random;
use design::states::{any_state, arguments, odd_state, tags};
use design::{Node, Tree};
use walks::{short, small_designs, Walk, MOST_NAMED};

/// States that a walk through a design made by chance looks at.
const MOST_RANDOM: usize = 300;

/// Both nodes have a step, and both orders come to the answers and ends that were worked out, which go against the rule.
/// Tells whether the nodes are rivals, and their kinds.
fn comes_out(case: &PairCase) -> (bool, Vec<&'static str>) {
    let (name, (bytes, tags)) = (case.name, case.table());
    let [one, other] = case.nodes;
    let [(answers, end), (turned_answers, turned_end)] = [[one, other], [other, one]].map(|order| {
        let mut state = case.before.clone();
        (order.map(|node| step(&bytes, &tags, &mut state, node)), state)
    });
    assert_eq!([answers, turned_answers], case.answers, "{name}");
    match case.apart {
        Some((node, wanted)) => assert_eq!([*end.node(node), *turned_end.node(node)], wanted, "{name}"),
        None => assert!(end == turned_end, "{name}"),
    }
    let refused = [answers, turned_answers].map(|answers| answers.map(|answer| matches!(answer, Answer::Refused(_))));
    assert!(!refused[0][0] && !refused[1][0], "{name}");
    assert!(end != turned_end || refused[0][1] || refused[1][1], "{name}");
    let tree = Tree::read(&bytes).expect(name);
    let moment = Moment { tree: &tree, tags: &tags, state: &case.before };
    (moment.rivals(Node(one), Node(other)), moment.kinds(case.nodes.map(Node)))
}

/// Left out that the nodes are different: a node has no second step.
#[test]
fn one_node_twice() {
    for case in same_node() {
        let (rivals, _) = comes_out(&case);
        assert!(!rivals && case.nodes[0] == case.nodes[1], "{}", case.name);
    }
}

/// Left out that they are no rivals: whichever goes first is inside, and the other waits.
#[test]
fn two_rivals() {
    for case in rivals() {
        let (rivals, _) = comes_out(&case);
        assert!(rivals && case.nodes[0] != case.nodes[1], "{}", case.name);
    }
}

/// Left out that a start leads to the state: each cause on its own.
#[test]
fn states_that_no_start_leads_to() -> Outcome {
    let mut shown = HashSet::new();
    for case in astray() {
        let (rivals, kinds) = comes_out(&case);
        // Main keeps its registers in these designs, so only a start with them could lead here.
        let (bytes, tags) = case.table();
        let tree = unrefused(Tree::read(&bytes), &bytes)?;
        let arguments = &case.before.function(tree.main()).registers[..tree.parameters(tree.main())];
        let walk = walk(&mut Kinds::default(), &bytes, &tags, arguments, MOST_NAMED)?;
        assert!(walk.is_all && !walk.found.contains(&short(&tree, &case.before)), "{}", case.name);
        assert!(!rivals && case.nodes[0] != case.nodes[1], "{}", case.name);
        let causes: Vec<&str> = kinds.into_iter().filter(|kind| CAUSES.contains(kind)).collect();
        assert_eq!(causes, Vec::from_iter(case.cause), "{}", case.name);
        shown.extend(causes);
    }
    assert_eq!(shown.len(), CAUSES.len());
    Ok(())
}

/// Every pair in one state, by the reference alone.
fn each_pair(moment: &Moment, each: impl FnMut(&Pair<State>) -> Outcome) -> Outcome {
    let step = |state: &mut State, node: Node| Ok(step_with(moment.tree, moment.tags, state, node.0));
    every_pair(moment, moment.state, step, each)
}

/// Looks at every pair in every state that a start leads to, up to so many. The start has these tags and the list.
fn walk(kinds: &mut Kinds, bytes: &[u8], tags: &[u8], arguments: &[u32], most: usize) -> Result<Walk, String> {
    walks::walk(bytes, tags, arguments, most, |tree, state| {
        kinds.note(vec!["states"]);
        let moment = Moment { tree, tags, state };
        each_pair(&moment, |pair| {
            kinds.note(vec![if pair.rivals { "rivals" } else { "either way" }]);
            kinds.note(moment.kinds(pair.nodes));
            pair.settled(tags)
        })
    })
}

#[test]
fn every_state_of_small_designs() -> Outcome {
    let mut kinds = Kinds::default();
    for (bytes, arguments) in small_designs()? {
        let list = unrefused(tags_of(&bytes), &bytes)?;
        let walk = walk(&mut kinds, &bytes, &list, &arguments, MOST_NAMED)?;
        ensure(walk.is_all, || format!("more than {MOST_NAMED} states: {bytes:?}"))?;
    }
    kinds.often(&[&MOVES_BESIDE[..], &PLACED, &RIVALS].concat(), 2)?;
    kinds.at_least(&[("states", 15_000), ("either way", 40_000), ("rivals", 70)])?;
    kinds.never(&[&CAUSES[..], &HARMLESS].concat())
}

/// Under the list, under no tag and under others after a start that had more: tags tell only how a rival has to wait.
#[test]
fn states_of_random_designs() -> Outcome {
    let (mut random, mut kinds) = (Random::new(81), Kinds::default());
    for _ in 0..900 {
        let nodes = if random.once_in(15) { random.within(65, 90) } else { random.within(4, 45) };
        let bytes = random.pick(&[accepted_of, accepted_sharing_of])(&mut random, nodes);
        let tree = unrefused(Tree::read(&bytes), &bytes)?;
        let (tags, arguments) = (tags(&mut random, &tree), arguments(&mut random, &tree));
        let walk = walk(&mut kinds, &bytes, &tags, &arguments, MOST_RANDOM)?;
        kinds.note(vec![if walk.is_all { "all states" } else { "many states" }]);
    }
    kinds.often(&[&MOVES_BESIDE[..], &PLACED, &RIVALS, &[HIGH]].concat(), 4)?;
    kinds.at_least(&[("states", 100_000), ("either way", 500_000), ("rivals", 400), ("all states", 300)])?;
    kinds.never(&[&CAUSES[..], &HARMLESS].concat())
}

/// In any state rivals are rivals, and where the order of others matters there is a cause that no start leads to.
#[test]
fn pairs_in_any_state() -> Outcome {
    let (mut random, mut kinds) = (Random::new(82), Kinds::default());
    for _ in 0..3000 {
        let nodes = random.within(4, 40);
        let bytes = random.pick(&[accepted_of, accepted_sharing_of])(&mut random, nodes);
        let tree = unrefused(Tree::read(&bytes), &bytes)?;
        let (tags, state) = (tags(&mut random, &tree), random.pick(&[any_state, odd_state])(&mut random, &tree));
        let moment = Moment { tree: &tree, tags: &tags, state: &state };
        each_pair(&moment, |pair| {
            let found = moment.kinds(pair.nodes);
            let causes: Vec<&str> = found.iter().copied().filter(|kind| CAUSES.contains(kind)).collect();
            if pair.rivals || causes.is_empty() {
                let harmless = found.into_iter().filter(|kind| HARMLESS.contains(kind)).collect();
                kinds.note(harmless);
                return pair.settled(&tags);
            }
            if !pair.either_way() && causes.len() == 1 {
                kinds.note(causes);
            }
            Ok(())
        })?;
    }
    kinds.often(&[&CAUSES[..], &HARMLESS].concat(), 15)
}
