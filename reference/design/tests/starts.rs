//! Starts look at the tags: every listed call has to have one. And what that leaves for 23.

mod walks;

use design::asm::assemble;
use design::circuit::{run_list, start, step, step_with, Answer, State};
use design::crowds::{callers, chain};
use design::difference::{ensure, shown, unrefused, Outcome};
use design::examples;
use design::generator::{accepted, accepted_sharing};
use design::kinds::Kinds;
use design::list::{arbiter_list, check_tags, is_tagged, missing, records, tag_bytes, Calls};
use design::random::Random;
use design::start_cases::{cases, designs, waits};
use design::starts::{Start, ALONE, ORDER};
use design::states::{any_state, every_call, holding_tags, missing_tags};
use design::tag_kinds::{tag_kinds, HELD, MISSED};
use design::towers::{any_comb, any_deep, any_tower, deep_beside, tower_beside};
use design::{check, Node, Refusal, Tree};
use numbers::OPEN;
use walks::{short, small_designs, walk, MOST_NAMED};

/// A state with something in every part, past N and F too.
fn noise(random: &mut Random) -> State {
    let bytes = assemble("fun main() = 1").expect("a text in order");
    any_state(random, &Tree::read(&bytes).expect("an accepted table"))
}

/// What a start is to make of a state: all of it anew, or nothing.
fn after(case: &Start, answer: Result<(), Refusal>, before: &State) -> State {
    let Ok(()) = answer else {
        return before.clone();
    };
    let tree = Tree::read(&case.bytes).expect("an accepted table");
    let mut state = State::zero();
    for (register, argument) in state.function_mut(tree.main()).registers.iter_mut().zip(&case.arguments) {
        *register = tree.keep(tree.main(), *argument);
    }
    state.node_mut(tree.root(tree.main())).status = OPEN;
    state
}

/// The start says this, and leaves the state accordingly.
fn says(random: &mut Random, case: &Start, wanted: Result<(), Refusal>, name: &str) {
    let before = noise(random);
    let mut state = before.clone();
    assert_eq!(start(&case.bytes, &case.tags, &case.arguments, &mut state), wanted, "{name}");
    assert!(state == after(case, wanted, &before), "{name}");
}

#[test]
fn named_starts() {
    let mut random = Random::new(91);
    for case in cases() {
        let handed = Start { bytes: case.bytes, tags: case.tags, arguments: case.arguments };
        says(&mut random, &handed, case.answer, &case.name);
    }
    for design in designs() {
        let tree = Tree::read(&assemble(&design.text).expect(&design.text)).expect(&design.text);
        let list: Vec<u16> = arbiter_list(&tree).iter().map(|node| node.0).collect();
        assert_eq!(list, design.list, "{}", design.text);
    }
}

/// The answer by another way: what is refused one after the other, and of the records the lowest without a tag.
fn worked_out(case: &Start) -> Result<(), Refusal> {
    check(&case.bytes)?;
    let tree = Tree::read(&case.bytes)?;
    check_tags(&tree, &case.tags)?;
    if case.arguments.len() != tree.parameters(tree.main()) {
        return Err(Refusal { number: 11, place: Node(0) });
    }
    let nodes = records(&tree).into_iter().map(|record| record.node);
    match nodes.filter(|node| !is_tagged(&case.tags, *node)).min() {
        Some(place) => Err(Refusal { number: 26, place }),
        None => Ok(()),
    }
}

#[test]
fn random_starts() -> Outcome {
    let (mut random, mut kinds) = (Random::new(92), Kinds::default());
    for _ in 0..12_000 {
        let case = Start::some(&mut random);
        let wanted = worked_out(&case);
        says(&mut random, &case, wanted, &shown(&case.bytes));
        kinds.note(case.kinds());
    }
    kinds.often(&[&ORDER[..], &ALONE, &HELD, &MISSED].concat(), 40)?;
    kinds.at_least(&[("nothing is refused", 3_000), ("26 alone", 800), ("11 before 26", 250), ("10 before 26", 200)])
}

/// The two ways to make tags for a table do what they say.
#[test]
fn tags_that_hold_the_list_and_tags_that_miss_some() -> Outcome {
    let (mut random, mut kinds) = (Random::new(93), Kinds::default());
    for round in 0..3_000 {
        let bytes = if round % 2 == 0 { accepted(&mut random) } else { accepted_sharing(&mut random) };
        let tree = Tree::read(&bytes).expect("an accepted table");
        let holding = holding_tags(&mut random, &tree);
        assert_eq!((check_tags(&tree, &holding), missing(&tree, &holding)), (Ok(()), None));
        kinds.note(tag_kinds(&tree, &holding));
        let list = arbiter_list(&tree);
        match missing_tags(&mut random, &tree) {
            Some(tags) => {
                assert_eq!(check_tags(&tree, &tags), Ok(()));
                assert!(missing(&tree, &tags).is_some_and(|call| list.contains(&call)));
                kinds.note(tag_kinds(&tree, &tags));
            }
            None => assert!(list.is_empty()),
        }
    }
    kinds.often(&[&HELD[..], &MISSED].concat(), 30)
}

/// Calls of one table that are left out; of a longer list some.
const LEFT_OUT: usize = 12;

/// A listed call left out alone is the place, and of two the lower, whether or not all others are tagged.
#[test]
fn one_or_two_calls_left_out() -> Outcome {
    let mut random = Random::new(94);
    let mut tables: Vec<Vec<u8>> = designs().iter().map(|design| assemble(&design.text).expect(&design.text)).collect();
    tables.extend(examples::tables()?.into_iter().filter(|bytes| check(bytes).is_ok()));
    tables.extend([callers(), chain(), tower_beside(), deep_beside()]);
    for _ in 0..4 {
        tables.extend([any_tower, any_deep, any_comb].map(|make| make(&mut random)));
    }
    tables.extend((0..150).map(|_| accepted_sharing(&mut random)));
    let (mut ones, mut high) = (0, 0);
    for bytes in tables {
        let tree = Tree::read(&bytes).expect("an accepted table");
        let list: Vec<Node> = arbiter_list(&tree).into_iter().collect();
        let marked: [Calls; 2] = [list.iter().copied().collect(), every_call(&tree)];
        let calls = match list.len() {
            0..=LEFT_OUT => list.clone(),
            _ => (0..LEFT_OUT).map(|_| random.pick(&list)).collect(),
        };
        for call in calls {
            let other = random.pick(&list);
            for mut marked in marked.clone() {
                marked.remove(&call);
                assert_eq!(missing(&tree, &tag_bytes(&tree, &marked)), Some(call));
                marked.remove(&other);
                assert_eq!(missing(&tree, &tag_bytes(&tree, &marked)), Some(call.min(other)));
            }
            ones += 1;
            high += usize::from(call > Node(256));
        }
    }
    println!("{ones} calls left out, {high} of them above node 256");
    ensure(ones >= 600 && high >= 100, || format!("{ones} calls, {high} above node 256"))
}

/// By which of 22 and 23 each call is refused that has to wait in this state.
fn waiting(tree: &Tree, tags: &[u8], state: &State) -> Vec<u16> {
    let refused = |node: Node| match step_with(tree, tags, &mut state.clone(), node.0) {
        Answer::Refused(refusal) if [22, 23].contains(&refusal.number) => Some(refusal.number),
        _ => None,
    };
    tree.nodes().filter_map(refused).collect()
}

/// In every state that a start leads to, under tags with which it would be possible, and under others: 23 is never met
/// under the first, and often under the others.
#[test]
fn tags_of_a_start_never_meet_23() -> Outcome {
    let (mut random, mut kinds) = (Random::new(95), Kinds::default());
    for (bytes, arguments) in small_designs()? {
        let tree = unrefused(Tree::read(&bytes), &bytes)?;
        let mut lists = vec![vec![0; tree.node_count().div_ceil(8)], tag_bytes(&tree, &every_call(&tree))];
        lists.extend((0..6).map(|_| holding_tags(&mut random, &tree)));
        lists.extend((0..9).filter_map(|_| missing_tags(&mut random, &tree)));
        for tags in lists {
            let is_possible = start(&bytes, &tags, &arguments, &mut State::zero()).is_ok();
            let walked = walk(&bytes, &tags, &arguments, MOST_NAMED, |tree, state| {
                let waiting = waiting(tree, &tags, state);
                ensure(!is_possible || !waiting.contains(&23), || format!("23: {}, {tags:?}", shown(&bytes)))?;
                let has_tags = if is_possible { "22 under tags of a start" } else { "22 under others" };
                kinds.note(waiting.iter().map(|number| if *number == 23 { "23" } else { has_tags }).collect());
                Ok(())
            })?;
            ensure(walked.is_all, || format!("more than {MOST_NAMED} states: {}", shown(&bytes)))?;
            kinds.note(vec![if is_possible { "tags of a start" } else { "others" }]);
        }
    }
    kinds.often(&["22 under tags of a start", "23"], 2_000)?;
    kinds.at_least(&[("tags of a start", 700), ("others", 500), ("22 under others", 800)])
}

/// What 23 remains for, beside tags other than the start's: states that no start leads to.
#[test]
fn states_in_which_23_remains() -> Outcome {
    for case in waits() {
        let (name, (bytes, tags)) = (case.name, case.table());
        let tree = unrefused(Tree::read(&bytes), &bytes)?;
        let refused = |number| Refusal { number, place: Node(case.node) };
        let mut state = case.before.clone();
        assert_eq!(step(&bytes, &tags, &mut state, case.node), Answer::Refused(refused(23)), "{name}");
        assert_eq!(run_list(&bytes, &tags, &mut state, &[case.node]), Ok((0, Some(refused(23)))), "{name}");
        let every = tag_bytes(&tree, &every_call(&tree));
        assert_eq!(step(&bytes, &every, &mut state, case.node), Answer::Refused(refused(22)), "{name}");
        assert!(state == case.before, "{name}");
        // A start is possible with these tags. Main keeps its registers, so only one with them could lead here.
        let main = tree.main();
        let arguments = &case.before.function(main).registers[..tree.parameters(main)];
        assert_eq!(start(&bytes, &tags, arguments, &mut State::zero()), Ok(()), "{name}");
        let walk = walk(&bytes, &tags, arguments, MOST_NAMED, |_, _| Ok(()))?;
        assert!(walk.is_all && !walk.found.contains(&short(&tree, &case.before)), "{name}");
    }
    Ok(())
}
