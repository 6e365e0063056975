//! The run on a budget takes the steps that the reference takes: count, ending, the node of each step, and the whole
//! state after them.

mod states;

use design::asm::assemble;
use design::circuit::{self, step_with};
use design::crowds::{callers, chain};
use design::difference::{shown, Outcome};
use design::first_cases::cases;
use design::first_kinds::{self, first_kinds, ENABLED, MOVES, NEVER, PICKED};
use design::generator::{accepted, accepted_of, accepted_sharing, accepted_sharing_of};
use design::kinds::Kinds;
use design::list::tags_of;
use design::random::Random;
use design::reading::read;
use design::states::{any_state, arguments, damage_state, holding_tags, odd_state, tags};
use design::towers::{any_comb, any_deep, any_tower};
use design::width_cases::CASES;
use design::width_kinds::{self, width_kinds, STARTED};
use design::{Node, Tree};
use fast::{run_sized_watched, run_watched, Ending, State};
use states::to_fast;

type Told = Result<(u32, Ending), u32>;

type Run = fn(&[u8], &[u8], &mut State, u32) -> Told;
const RUNS: [Run; 2] = [fast::run, fast::run_sized];

/// The same two, telling the nodes.
type Watched = fn(&[u8], &[u8], &mut State, u32, &mut Vec<Node>) -> Told;
const WATCHED: [Watched; 2] = [
    |t, g, s, budget, nodes| run_watched(t, g, s, budget, |node| nodes.push(Node(node))),
    |t, g, s, budget, nodes| run_sized_watched(t, g, s, budget, |node| nodes.push(Node(node))),
];

/// What the steps of all runs did.
#[derive(Default)]
struct Done {
    widths: Kinds,
    firsts: Kinds,
    runs: usize,
    /// Answered, at rest and spent.
    endings: [usize; 3],
    /// Runs of at least 20 steps by the words of a set of their nodes.
    words: [usize; 9],
}

/// Runs all ways from this state and compares; counts what the steps did.
fn same_run(done: &mut Done, bytes: &[u8], tags: &[u8], begun: &circuit::State, budget: u32) -> (u32, Ending) {
    let tree = Tree::read(bytes).expect("an accepted table");
    let mut wanted = begun.clone();
    let (nodes, ending) = circuit::run_traced(bytes, tags, &mut wanted, budget).expect("a state in order");
    let ending = match ending {
        circuit::Ending::Answered(value) => Ending::Answered(value),
        circuit::Ending::AtRest => Ending::AtRest,
        circuit::Ending::Spent => Ending::Spent,
    };
    let told = (nodes.len() as u32, ending);
    for run in WATCHED {
        let (mut state, mut steps) = (to_fast(begun), Vec::new());
        let found = run(bytes, tags, &mut state, budget, &mut steps);
        assert!(steps == nodes, "{steps:?}, wanted {nodes:?}: table {}, tags {}", shown(bytes), shown(tags));
        assert_eq!(found, Ok(told), "{}", shown(bytes));
        assert!(state == to_fast(&wanted), "{steps:?}: {}", shown(bytes));
    }
    let mut own = begun.clone();
    for node in &nodes {
        let before = own.clone();
        step_with(&tree, tags, &mut own, node.0);
        done.widths.note(width_kinds(&tree, &before, *node));
        done.firsts.note(first_kinds(&tree, tags, &before, *node, &own));
    }
    done.runs += 1;
    done.endings[match ending {
        Ending::Answered(_) => 0,
        Ending::AtRest => 1,
        Ending::Spent => 2,
    }] += 1;
    done.words[tree.node_count().div_ceil(64)] += usize::from(nodes.len() >= 20);
    told
}

fn started(bytes: &[u8], tags: &[u8], arguments: &[u32]) -> circuit::State {
    let mut state = circuit::State::zero();
    circuit::start(bytes, tags, arguments, &mut state).expect("a start");
    state
}

/// Tables of every number of words, mostly small ones.
fn some_table(random: &mut Random) -> Vec<u8> {
    let nodes = random.within(1, 100);
    match random.below(24) {
        0 => any_tower(random),
        1 => any_deep(random),
        2 => any_comb(random),
        3..=4 => accepted(random),
        5..=6 => accepted_sharing(random),
        7..=8 => {
            let nodes = random.within(65, 512);
            accepted_sharing_of(random, nodes)
        }
        9..=13 => accepted_of(random, nodes),
        _ => accepted_sharing_of(random, nodes.max(12)),
    }
}

/// A start has tags that hold the list; runs from it have any.
#[test]
fn runs_from_a_start_agree() -> Outcome {
    let (mut random, mut done) = (Random::new(13), Done::default());
    for round in 0..2500 {
        let bytes = some_table(&mut random);
        let tree = Tree::read(&bytes).expect("an accepted table");
        let (tags, arguments) = (tags(&mut random, &tree), arguments(&mut random, &tree));
        let begun = started(&bytes, &holding_tags(&mut random, &tree), &arguments);
        let budget = if round % 4 == 0 { random.below(200) as u32 } else { 600 };
        let found = same_run(&mut done, &bytes, &tags, &begun, budget);
        match read(&tree, &arguments, budget.into()) {
            Some(reading) => assert_eq!(found, (reading.count as u32, Ending::Answered(reading.value))),
            None => assert_eq!(found, (budget, Ending::Spent)),
        }
    }
    assert!(done.words[1..].iter().all(|count| *count > 10), "{:?}", done.words);
    done.widths.often(&STARTED, 200)?;
    done.widths.never(&width_kinds::ASTRAY)?;
    done.firsts.often(&[&MOVES[..], &PICKED].concat(), 100)?;
    done.firsts.never(&[&first_kinds::ASTRAY[..], &NEVER].concat())
}

/// From where steps in any order lead to: there more calls meet.
#[test]
fn runs_from_the_middle_agree() -> Outcome {
    let (mut random, mut done) = (Random::new(19), Done::default());
    for _ in 0..4000 {
        let bytes = some_table(&mut random);
        let tree = Tree::read(&bytes).expect("an accepted table");
        let tags = tags(&mut random, &tree);
        let mut begun = started(&bytes, &holding_tags(&mut random, &tree), &arguments(&mut random, &tree));
        for _ in 0..random.below(200) {
            step_with(&tree, &tags, &mut begun, random.within(1, tree.node_count()) as u16);
        }
        same_run(&mut done, &bytes, &tags, &begun, 120);
    }
    done.firsts.often(&[&MOVES[..], &PICKED, &ENABLED].concat(), 100)?;
    done.firsts.never(&[&first_kinds::ASTRAY[..], &NEVER].concat())
}

#[test]
fn runs_from_any_state_agree() -> Outcome {
    let (mut random, mut done) = (Random::new(14), Done::default());
    for _ in 0..8000 {
        let bytes = some_table(&mut random);
        let tree = Tree::read(&bytes).expect("an accepted table");
        let tags = tags(&mut random, &tree);
        let mut begun = random.pick(&[any_state, odd_state])(&mut random, &tree);
        let budget = if random.once_in(8) { random.below(4) as u32 } else { 100 };
        same_run(&mut done, &bytes, &tags, &begun, budget);
        damage_state(&mut random, &tree, &mut begun);
        for run in RUNS {
            let mut state = to_fast(&begun);
            assert_eq!(run(&bytes, &tags, &mut state, 300), Err(24 << 16));
            assert!(state == to_fast(&begun));
        }
    }
    assert!(done.endings.iter().all(|count| *count > 500), "{:?}", done.endings);
    assert!(done.words[1..].iter().all(|count| *count > 50), "{:?}", done.words);
    done.widths.often(&width_kinds::ASTRAY, 50)?;
    done.firsts.often(&[&MOVES[..], &PICKED, &ENABLED, &first_kinds::ASTRAY].concat(), 50)?;
    done.firsts.never(&NEVER)
}

#[test]
fn named_states_agree() {
    for case in cases() {
        let (bytes, tags) = case.table();
        for budget in 0..case.nodes.len() as u32 + 2 {
            let taken = case.nodes.len().min(budget as usize);
            let wanted: Vec<Node> = case.nodes[..taken].iter().map(|node| Node(*node)).collect();
            for run in WATCHED {
                let mut nodes = Vec::new();
                let told = run(&bytes, &tags, &mut to_fast(&case.before), budget, &mut nodes);
                assert_eq!((told.map(|told| told.0), &nodes), (Ok(taken as u32), &wanted), "{}", case.name);
            }
            same_run(&mut Done::default(), &bytes, &tags, &case.before, budget);
        }
    }
}

/// Very many calls under way at once.
#[test]
fn runs_of_crowds_agree() -> Outcome {
    let mut done = Done::default();
    for (bytes, arguments) in [(callers(), &[2][..]), (chain(), &[2, 9])] {
        let tags = tags_of(&bytes).expect("an accepted table");
        let begun = started(&bytes, &tags, arguments);
        for budget in [300, u32::MAX] {
            same_run(&mut done, &bytes, &tags, &begun, budget);
        }
    }
    assert_eq!(done.endings, [2, 0, 2]);
    done.firsts.often(&["callee left by another call, and so several calls", PICKED[2]], 400)
}

/// The named designs of narrow functions.
#[test]
fn named_widths_agree() {
    for (text, arguments, value, count) in CASES {
        let bytes = assemble(text).expect(text);
        let tags = tags_of(&bytes).expect(text);
        for run in RUNS {
            let mut state = State::zero();
            assert_eq!(fast::start(&bytes, &tags, arguments, &mut state), 0, "{text}");
            let told = run(&bytes, &tags, &mut state, 1000);
            assert_eq!(told, Ok((count, Ending::Answered(value))), "{text} of {arguments:?}");
        }
        let begun = started(&bytes, &tags, arguments);
        for budget in 0..=count + 1 {
            same_run(&mut Done::default(), &bytes, &tags, &begun, budget);
        }
    }
}
