//! The fast start says what the reference says, and leaves the same state, in both of its ways.

mod states;

use design::circuit;
use design::crowds::{callers, chain};
use design::difference::{code, shown, Outcome};
use design::generator::accepted_sharing;
use design::kinds::Kinds;
use design::list::{arbiter_list, tag_bytes};
use design::random::Random;
use design::start_cases::cases;
use design::starts::{Start, ALONE, ORDER};
use design::states::{any_state, arguments, every_call};
use design::tag_kinds::{HELD, MISSED};
use design::towers::{any_comb, any_deep, any_tower, deep_beside, tower_beside};
use design::{Node, Tree};
use fast::State;
use states::to_fast;

type Way = fn(&[u8], &[u8], &[u32], &mut State) -> u32;

/// In place, and on lent arrays.
const WAYS: [Way; 2] = [fast::start, |t, g, arguments, s| fast::start_lent(t, g, arguments, &mut s.lend())];

/// Both ways say what the reference says and leave the state as it does; tells that.
fn same_start(case: &Start, before: &circuit::State) -> u32 {
    let mut wanted = before.clone();
    let answer = code(circuit::start(&case.bytes, &case.tags, &case.arguments, &mut wanted));
    for start in WAYS {
        let mut found = to_fast(before);
        let said = start(&case.bytes, &case.tags, &case.arguments, &mut found);
        assert_eq!(said, answer, "table {}, tags {}", shown(&case.bytes), shown(&case.tags));
        assert!(found == to_fast(&wanted), "table {}, tags {}", shown(&case.bytes), shown(&case.tags));
    }
    answer
}

/// Any state that fits a table; for a refused one the zero state.
fn some_state(random: &mut Random, bytes: &[u8]) -> circuit::State {
    Tree::read(bytes).map_or_else(|_| circuit::State::zero(), |tree| any_state(random, &tree))
}

#[test]
fn starts_agree() -> Outcome {
    let (mut random, mut kinds) = (Random::new(15), Kinds::default());
    let mut refused = [0; 27];
    for _ in 0..9000 {
        let case = Start::some(&mut random);
        let before = some_state(&mut random, &case.bytes);
        refused[same_start(&case, &before) as usize >> 16] += 1;
        kinds.note(case.kinds());
    }
    assert!(refused[0] > 2000 && refused[26] > 600, "{refused:?}");
    assert!((1..=11).chain([25]).all(|number| refused[number] > 50), "{refused:?}");
    kinds.often(&[&ORDER[..], &ALONE, &HELD, &MISSED].concat(), 20)
}

#[test]
fn named_starts_agree() {
    let mut random = Random::new(20);
    for case in cases() {
        let handed = Start { bytes: case.bytes, tags: case.tags, arguments: case.arguments };
        let before = some_state(&mut random, &handed.bytes);
        assert_eq!(same_start(&handed, &before), code(case.answer), "{}", case.name);
    }
}

/// The longest lists with one call left out, in every word, and with two.
#[test]
fn one_or_two_calls_left_out() {
    let mut random = Random::new(21);
    let mut tables = vec![callers(), chain(), tower_beside(), deep_beside()];
    for _ in 0..4 {
        tables.extend([any_tower, any_deep, any_comb].map(|make| make(&mut random)));
    }
    tables.extend((0..150).map(|_| accepted_sharing(&mut random)));
    let mut words = [0; 8];
    for bytes in tables {
        let tree = Tree::read(&bytes).expect("an accepted table");
        let list: Vec<Node> = arbiter_list(&tree).into_iter().collect();
        let arguments = arguments(&mut random, &tree);
        for call in &list {
            let other = random.pick(&list);
            for less in [vec![*call], vec![*call, other]] {
                let mut marked = if random.once_in(2) { every_call(&tree) } else { list.iter().copied().collect() };
                marked.retain(|node| !less.contains(node));
                let lowest = less.into_iter().min().expect("one or two");
                let tags = tag_bytes(&tree, &marked);
                for start in WAYS {
                    let said = start(&bytes, &tags, &arguments, &mut State::zero());
                    assert_eq!(said, 26 << 16 | u32::from(lowest.0), "{}", shown(&bytes));
                }
            }
            words[usize::from(call.0 - 1) / 64] += 1;
        }
    }
    assert!(words.iter().all(|count| *count > 60), "{words:?}");
}
