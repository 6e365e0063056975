//! The first possible step in the proved circuit: what the query names, and the nodes of a run on a budget one by one.

use compare_circuit::rounds::{some_table, some_tags, tree_of, Round};
use compare_circuit::seen::Seen;
use design::circuit::{step_with, Ending};
use design::crowds::{callers, chain};
use design::difference::{ensure, unrefused, Outcome};
use design::first_cases::cases;
use design::first_kinds::{first_kinds, ASTRAY, ENABLED, MOVES, NEVER, PICKED};
use design::generator::accepted_sharing_of;
use design::kinds::Kinds;
use design::list::tags_of;
use design::random::Random;
use design::states::{any_state, arguments, damage_state, odd_state};
use design::towers::{any_comb, any_deep, any_tower};
use design::Node;

/// Runs from a start, from where steps in any order lead to, and from any state: 42,000 in all.
const STARTED: usize = 10_000;
const UNDER_WAY: usize = 12_000;
const STANDING: usize = 20_000;

/// No step, one, few or many.
fn some_budget(random: &mut Random, large: bool) -> u32 {
    let budget = match random.below(8) {
        0 => 0,
        1 => 1,
        2 => random.within(2, 8),
        3..=5 => random.within(9, 60),
        6 if large => 80,
        6 => random.within(61, 300),
        _ if large => 100,
        _ => 400,
    };
    budget as u32
}

/// The query, the run node by node, and the run as a whole, from one state; counts what the steps did.
fn compare(random: &mut Random, seen: &mut Seen, kinds: &mut Kinds, mut round: Round) -> Outcome {
    let budget = some_budget(random, round.tree.node_count() > 120);
    let named = round.query()?;
    let told = round.trace(budget)?;
    let begun = round.own.clone();
    let driven = round.drive(random, budget)?;
    seen.note("runs");
    let (nodes, ending) = match told {
        Ok(told) => told,
        Err(refusal) => {
            seen.refused(refusal.number);
            return ensure((named, driven) == (Err(refusal), Err(refusal)), || round.told(format!("{refusal:?}")));
        }
    };
    let wanted = (nodes.len() as u32, ending);
    ensure(driven == Ok(wanted), || round.told(format!("drive said {driven:?}, one by one {wanted:?}")))?;
    let first = nodes.first().copied();
    ensure(budget == 0 || named == Ok(first), || round.told(format!("query said {named:?}, first is {first:?}")))?;
    let mut state = begun;
    for node in &nodes {
        let before = state.clone();
        step_with(&round.tree, &round.tags, &mut state, node.0);
        kinds.note(first_kinds(&round.tree, &round.tags, &before, *node, &state));
    }
    let ending = match ending {
        Ending::Answered(_) => "answered",
        Ending::AtRest => "at rest",
        Ending::Spent => "spent",
    };
    seen.note(ending);
    seen.note_if(&format!("{ending} on no budget"), budget == 0);
    seen.note_if(&format!("{ending} after one step"), nodes.len() == 1);
    seen.note_if(&format!("{ending} after more"), nodes.len() > 1);
    seen.note_if("more than 50 steps", nodes.len() > 50);
    seen.note_if("past one word of nodes", nodes.iter().any(|node| node.0 > 64));
    Ok(())
}

/// In half of them many calls share few functions, so that they wait for each other.
fn crowded_table(random: &mut Random) -> Vec<u8> {
    let nodes = random.within(12, 140);
    match random.below(400) {
        0 => any_tower(random),
        1 => any_deep(random),
        2 => any_comb(random),
        3..=200 => accepted_sharing_of(random, nodes),
        _ => some_table(random),
    }
}

fn started(random: &mut Random) -> Result<Round, String> {
    let bytes = crowded_table(random);
    let tree = tree_of(&bytes)?;
    let tags = some_tags(random, &bytes)?;
    let arguments = arguments(random, &tree);
    Round::begun(random, bytes, tags, &arguments)
}

/// What a start leads to never comes to the ways that are odd.
fn from_a_start(kinds: &Kinds) -> Outcome {
    kinds.never(&[&ASTRAY[..], &NEVER].concat())
}

#[test]
fn from_starts() -> Outcome {
    let (mut random, mut seen, mut kinds) = (Random::new(441), Seen::default(), Kinds::default());
    for _ in 0..STARTED {
        let round = started(&mut random)?;
        compare(&mut random, &mut seen, &mut kinds, round)?;
    }
    kinds.often(&[&MOVES[..], &PICKED, &ENABLED].concat(), 60)?;
    from_a_start(&kinds)?;
    let wanted = [
        ("runs", STARTED),
        ("answered after more", STARTED / 6),
        ("spent on no budget", STARTED / 10),
        ("spent after one step", STARTED / 15),
        ("spent after more", STARTED / 4),
        ("more than 50 steps", STARTED / 8),
        ("past one word of nodes", STARTED / 20),
    ];
    seen.often("from starts", &wanted)
}

/// Steps in any order come before, so that calls meet more often than in their own order.
#[test]
fn from_states_under_way() -> Outcome {
    let (mut random, mut seen, mut kinds) = (Random::new(442), Seen::default(), Kinds::default());
    for _ in 0..UNDER_WAY {
        let mut round = started(&mut random)?;
        for _ in 0..random.below(120) {
            let node = round.some_node(&mut random);
            step_with(&round.tree, &round.tags, &mut round.own, node);
        }
        let round = Round::standing(round.bytes, round.tags, round.own)?;
        compare(&mut random, &mut seen, &mut kinds, round)?;
    }
    kinds.often(&[&MOVES[..], &PICKED, &ENABLED].concat(), 200)?;
    from_a_start(&kinds)?;
    let wanted = [
        ("runs", UNDER_WAY),
        ("answered on no budget", UNDER_WAY / 50),
        ("spent on no budget", UNDER_WAY / 20),
        ("more than 50 steps", UNDER_WAY / 10),
    ];
    seen.often("under way", &wanted)
}

#[test]
fn from_any_state() -> Outcome {
    let (mut random, mut seen, mut kinds) = (Random::new(443), Seen::default(), Kinds::default());
    for _ in 0..STANDING {
        let bytes = crowded_table(&mut random);
        let tree = tree_of(&bytes)?;
        let tags = some_tags(&mut random, &bytes)?;
        let mut state = random.pick(&[any_state, odd_state])(&mut random, &tree);
        if random.once_in(20) {
            damage_state(&mut random, &tree, &mut state);
        }
        let round = Round::standing(bytes, tags, state)?;
        compare(&mut random, &mut seen, &mut kinds, round)?;
    }
    kinds.often(&[&MOVES[..], &PICKED, &ENABLED, &ASTRAY].concat(), 100)?;
    kinds.never(&NEVER)?;
    let wanted = [
        ("runs", STANDING),
        ("answered on no budget", 30),
        ("answered after one step", 100),
        ("answered after more", 1000),
        ("at rest on no budget", 20),
        ("at rest after one step", 100),
        ("at rest after more", 1000),
        ("spent on no budget", 500),
        ("spent after one step", 500),
        ("spent after more", 1000),
        ("past one word of nodes", STANDING / 25),
    ];
    seen.often("any state", &wanted)?;
    seen.refused_often("any state", [24], STANDING / 40)
}

/// The nodes that were worked out by hand, on each budget up to the last.
#[test]
fn named_states() -> Outcome {
    let mut random = Random::new(444);
    for case in cases() {
        let (bytes, tags) = case.table();
        let nodes: Vec<Node> = case.nodes.iter().copied().map(Node).collect();
        for budget in 0..nodes.len() as u32 + 2 {
            let mut round = Round::standing(bytes.clone(), tags.clone(), case.before.clone())?;
            let taken = nodes.len().min(budget as usize);
            let ending = if taken < nodes.len() { Ending::Spent } else { case.ending };
            let told = round.trace(budget)?;
            let fits = told == Ok((nodes[..taken].to_vec(), ending));
            ensure(fits, || round.told(format!("{}: {told:?} on {budget}", case.name)))?;
            let driven = round.drive(&mut random, budget)?;
            ensure(driven == Ok((taken as u32, ending)), || round.told(format!("{}: {driven:?}", case.name)))?;
            let (named, next) = (round.query()?, nodes.get(taken).copied());
            ensure(named == Ok(next), || round.told(format!("{}: then {named:?}, wanted {next:?}", case.name)))?;
        }
    }
    Ok(())
}

/// Very many calls under way at once, in every state that the run passes through.
#[test]
fn crowds() -> Outcome {
    let (mut random, mut kinds) = (Random::new(445), Kinds::default());
    for (bytes, arguments) in [(callers(), &[2][..]), (chain(), &[2, 9])] {
        let tags = unrefused(tags_of(&bytes), &bytes)?;
        let mut round = Round::started(bytes, tags, arguments)?;
        let told = round.trace(u32::MAX)?;
        let Ok((nodes, ending @ Ending::Answered(_))) = told else {
            return Err(round.told(format!("{told:?}")));
        };
        let mut state = round.own.clone();
        for node in &nodes {
            let before = state.clone();
            step_with(&round.tree, &round.tags, &mut state, node.0);
            kinds.note(first_kinds(&round.tree, &round.tags, &before, *node, &state));
        }
        let driven = round.drive(&mut random, u32::MAX)?;
        ensure(driven == Ok((nodes.len() as u32, ending)), || round.told(format!("{driven:?}")))?;
    }
    kinds.often(&["callee left by another call, and so several calls", PICKED[2]], 400)?;
    from_a_start(&kinds)
}
