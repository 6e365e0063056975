//! The query and the run over a list of the proved circuit against the reference and the plain reading.

use std::collections::BTreeMap;

use compare_circuit::rounds::{some_table, some_tags, tree_of, Round, EMPTY_LIST, LIST_HELD, LIST_MISSED, NARROW};
use compare_circuit::seen::Seen;
use design::circuit::{self, possible, Answer};
use design::difference::{ensure, Outcome};
use design::random::Random;
use design::reading::read;
use design::states::arguments;
use design::width_kinds::is_narrow;
use design::Node;

const RUNS: usize = 6_000;

/// Steps up to which a reading is followed.
const LIMIT: u64 = 1_000;

/// Both beginnings and each sort of tags have to occur in every test.
const ROUNDS: [(&str, usize); 6] = [
    (NARROW, RUNS * 3 / 4),
    ("from a start", RUNS / 3),
    ("from any state", RUNS / 3),
    (EMPTY_LIST, RUNS / 3),
    (LIST_HELD, RUNS / 5),
    (LIST_MISSED, RUNS / 12),
];

/// Nodes that have steps one after the other from here.
fn good_nodes(random: &mut Random, round: &Round, most: usize) -> Vec<u16> {
    let mut state = round.own.clone();
    let mut nodes = Vec::new();
    if circuit::check_state(&round.tree, &state).is_err() {
        return nodes;
    }
    for _ in 0..most {
        let open: Vec<Node> = possible(&round.tree, &round.tags, &state).collect();
        if open.is_empty() {
            break;
        }
        let node = random.pick(&open).0;
        circuit::step_with(&round.tree, &round.tags, &mut state, node);
        nodes.push(node);
    }
    nodes
}

/// Steps that are taken, mostly with something among them or after them that may be refused.
fn some_nodes(random: &mut Random, round: &Round) -> Vec<u16> {
    let most = random.within(0, 200);
    let mut nodes = good_nodes(random, round, most);
    match random.below(5) {
        0 => {}
        1 => nodes.push(random.below(round.tree.node_count() + 2) as u16),
        2 => {
            let at = random.below(nodes.len() + 1);
            nodes.insert(at, random.below(round.tree.node_count() + 2) as u16);
        }
        3 => {
            nodes.truncate(random.within(0, 40));
            nodes.extend(has_to_wait(round, &nodes));
        }
        _ => nodes.extend((0..random.below(5)).map(|_| random.below(50) as u16)),
    }
    nodes
}

/// A call that has to wait after these steps, if there is one.
fn has_to_wait(round: &Round, nodes: &[u16]) -> Option<u16> {
    let mut state = round.own.clone();
    for node in nodes {
        circuit::step_with(&round.tree, &round.tags, &mut state, *node);
    }
    (1..=round.tree.node_count() as u16).find(|node| {
        let answer = circuit::step_with(&round.tree, &round.tags, &mut state.clone(), *node);
        matches!(answer, Answer::Refused(refusal) if [22, 23].contains(&refusal.number))
    })
}

#[test]
fn runs_over_lists() -> Outcome {
    let (mut random, mut seen) = (Random::new(421), Seen::default());
    for _ in 0..RUNS {
        let mut round = Round::some(&mut random, &mut seen)?;
        let nodes = some_nodes(&mut random, &round);
        match round.run(&mut random, &nodes)? {
            Ok((taken, None)) => seen.note_if("whole", taken > 0),
            Ok((taken, Some(refusal))) => {
                seen.refused(refusal.number);
                seen.note_if("refused after some steps", taken > 0);
            }
            Err(refusal) => seen.refused(refusal.number),
        }
        // Where it came to is a state like any other.
        let more = good_nodes(&mut random, &round, 5);
        let _ = round.run(&mut random, &more)?;
        let _ = round.run(&mut random, &[])?;
    }
    seen.often("runs", &ROUNDS)?;
    seen.at_least("runs", &[("whole", 1000), ("refused after some steps", 1000)])?;
    seen.refused_often("runs", [12, 20, 21, 22, 23, 24], 50)
}

/// Runs whose first step is refused, for each reason that there is in a state, count no step.
#[test]
fn runs_refused_at_once() -> Outcome {
    let (mut random, mut seen) = (Random::new(426), Seen::default());
    for _ in 0..RUNS {
        let mut round = Round::some(&mut random, &mut seen)?;
        for _ in 0..4 {
            let mut nodes = good_nodes(&mut random, &round, 3);
            nodes.insert(0, 0);
            for (number, first) in refused_first(&mut random, &round) {
                nodes[0] = first;
                let told = round.run(&mut random, &nodes)?;
                let fits = matches!(told, Ok((0, Some(refusal))) if refusal.number == number);
                ensure(fits, || round.told(format!("{told:?} over {nodes:?}, wanted {number} at once")))?;
                seen.refused(number);
            }
            let steps = random.within(1, 9);
            let nodes = good_nodes(&mut random, &round, steps);
            let _ = round.run(&mut random, &nodes)?;
        }
        let told = round.run(&mut random, &[])?;
        seen.note_if("nothing asked for", told == Ok((0, None)));
        seen.note_if("nothing asked for, and refused", told.is_err());
    }
    seen.often("runs refused at once", &ROUNDS)?;
    seen.at_least("runs refused at once", &[("nothing asked for", RUNS / 2), ("nothing asked for, and refused", 200)])?;
    seen.refused_often("runs refused at once", [12, 20, 21, 22, 23], 500)
}

/// Each number by which a step is refused here, and one of the nodes where it is.
fn refused_first(random: &mut Random, round: &Round) -> BTreeMap<u16, u16> {
    let mut found = BTreeMap::new();
    if circuit::check_state(&round.tree, &round.own).is_err() {
        return found;
    }
    let mut nodes: Vec<u16> = (0..=round.tree.node_count() as u16 + 1).collect();
    let from = random.below(nodes.len());
    nodes.rotate_left(from);
    for node in nodes {
        if let Answer::Refused(refusal) = circuit::step_with(&round.tree, &round.tags, &mut round.own.clone(), node) {
            found.entry(refusal.number).or_insert(node);
        }
    }
    found
}

/// From a start, a list of steps in any order that leads to the answer: value and count are the reading's.
#[test]
fn runs_to_the_answer() -> Outcome {
    let (mut random, mut seen) = (Random::new(425), Seen::default());
    for _ in 0..RUNS / 2 {
        let bytes = some_table(&mut random);
        let tree = tree_of(&bytes)?;
        let arguments = arguments(&mut random, &tree);
        let Some(reading) = read(&tree, &arguments, LIMIT) else {
            continue;
        };
        let tags = some_tags(&mut random, &bytes)?;
        let mut round = Round::begun(&mut random, bytes, tags, &arguments)?;
        seen.note(round.tagging()?);
        seen.note_if(NARROW, is_narrow(&tree));
        let nodes = good_nodes(&mut random, &round, usize::MAX);
        let told = round.run(&mut random, &nodes)?;
        let root = *round.own.node(tree.root(tree.main()));
        let fits =
            told == Ok((reading.count as usize, None)) && (root.status, root.value) == (numbers::DONE, reading.value);
        let wrong = || format!("{told:?}, root {root:?}, wanted {reading:?}, arguments {arguments:?}");
        ensure(fits, || round.told(wrong()))?;
        let any = random.within(1, tree.node_count()) as u16;
        let past = round.run(&mut random, &[any])?;
        ensure(matches!(past, Ok((0, Some(refusal))) if refusal.number == 20), || {
            round.told(format!("then {past:?}"))
        })?;
        seen.note("answered as the reading says");
        seen.note_if("in more than 100 steps", reading.count > 100);
    }
    let wanted = [
        (NARROW, RUNS / 4),
        (EMPTY_LIST, RUNS / 20),
        (LIST_HELD, RUNS / 20),
        (LIST_MISSED, RUNS / 50),
        ("answered as the reading says", RUNS / 4),
        ("in more than 100 steps", RUNS / 100),
    ];
    seen.often("runs to the answer", &wanted)
}

#[test]
fn queries() -> Outcome {
    let (mut random, mut seen) = (Random::new(422), Seen::default());
    for _ in 0..RUNS {
        let mut round = Round::some(&mut random, &mut seen)?;
        for _ in 0..10 {
            match round.query()? {
                Ok(Some(node)) => {
                    seen.note("named");
                    round.step(node.0)?;
                }
                Ok(None) => seen.note("none"),
                Err(refusal) => seen.refused(refusal.number),
            }
            let node = round.some_node(&mut random);
            round.step(node)?;
        }
    }
    seen.often("queries", &ROUNDS)?;
    seen.at_least("queries", &[("named", 20_000), ("none", 10_000)])?;
    seen.refused_often("queries", [24], 2000)
}
