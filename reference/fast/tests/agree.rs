//! The fast baseline gives the same answers as the reference: the checks, the lists and a step.

mod states;

use design::asm::assemble;
use design::circuit::{self, Answer};
use design::damage::{damaged, too_wide};
use design::difference::{code, shown};
use design::generator::{accepted, accepted_of, accepted_sharing};
use design::list::{differs_over_all, tag_bytes, tags_of};
use design::operation_cases::{large, small, WORDS};
use design::random::Random;
use design::reach_cases;
use design::start_cases::waits;
use design::states::{any_state, damage_state, damaged_tags, tags};
use design::towers::{any_comb, any_deep, any_tower};
use design::width_cases::standings;
use design::{check, operation_counts, Node, Tree};
use fast::State;
use states::to_fast;

type Check = fn(&[u8]) -> u32;

/// Both ways to check a table.
const CHECKS: [Check; 2] = [fast::check, fast::check_packed];

type List = fn(&[u8], &mut [u8; 64]) -> u32;

/// Both ways to the arbiter list.
const LISTS: [List; 2] = [fast::list, fast::list_by_sets];

/// Both checks have to come to this.
fn checks_say(bytes: &[u8], wanted: u32) {
    assert_eq!(CHECKS.map(|check| check(bytes)), [wanted; 2], "{}", shown(bytes));
}

#[test]
fn the_checks_agree() {
    let mut random = Random::new(11);
    let mut wide = 0;
    for _ in 0..50000 {
        let bytes = damaged(&mut random);
        let wanted = code(check(&bytes));
        checks_say(&bytes, wanted);
        wide += usize::from(wanted >> 16 == 25);
    }
    assert!(wide > 2000, "{wide}");
    for _ in 0..4000 {
        checks_say(&accepted(&mut random), 0);
    }
}

/// The counts that the checks look up, and the bits in which they count, by tables of one primitive.
#[test]
fn checks_of_operations_agree() {
    for case in small().chain(large()) {
        checks_say(&case.bytes(), case.wanted(operation_counts(case.operation)));
    }
    for case in small() {
        for word in WORDS {
            checks_say(&case.with_word(word), 5 << 16 | 2);
        }
    }
}

/// Lets one in the body of another, and below them as many bounds of the outermost as fit.
fn far_scopes(lets: usize) -> Vec<u8> {
    let mut text = "fun main() = let a = 0 in".to_string();
    for _ in 1..lets {
        text += " let b = 1 in";
    }
    let room = 512 - 2 * lets;
    for _ in 0..room / 2 - 1 {
        text += " beside(a,";
    }
    text += " a";
    text += &")".repeat(room / 2 - 1);
    assemble(&text).expect("a text in order")
}

#[test]
fn checks_of_far_scopes_agree() {
    let mut random = Random::new(18);
    let mut refused = 0;
    for round in 0..400 {
        let mut bytes = far_scopes(random.within(1, 200));
        checks_say(&bytes, 0);
        // Some bounds of another definiens, or of what is none.
        for _ in 0..round % 3 {
            let nodes = (bytes.len() - 8) / 10;
            let record = 8 + 10 * random.below(nodes);
            if bytes[record] == numbers::BOUND {
                bytes[record + 2..record + 4].copy_from_slice(&(random.below(nodes + 2) as u16).to_le_bytes());
            }
        }
        let wanted = code(check(&bytes));
        checks_say(&bytes, wanted);
        refused += usize::from(wanted != 0);
    }
    assert!((20..380).contains(&refused), "{refused}");
}

/// Both lists have to come to these tags, and clear all bits after them.
fn lists_say(bytes: &[u8], wanted: &[u8]) {
    for list in LISTS {
        let mut found = [0xff; 64];
        assert_eq!(list(bytes, &mut found), 0);
        assert_eq!(found[..wanted.len()], *wanted, "{}", shown(bytes));
        assert!(found[wanted.len()..].iter().all(|byte| *byte == 0));
    }
}

#[test]
fn the_lists_agree() {
    let mut random = Random::new(12);
    let (mut listed, mut spare) = (0, 0);
    for round in 0..6000 {
        let bytes = match round % 100 {
            0 => any_tower(&mut random),
            1 => any_deep(&mut random),
            2 => any_comb(&mut random),
            3..=50 => accepted_sharing(&mut random),
            _ => accepted(&mut random),
        };
        let wanted = tags_of(&bytes).expect("an accepted table");
        checks_say(&bytes, 0);
        lists_say(&bytes, &wanted);
        listed += usize::from(wanted.iter().any(|byte| *byte != 0));
        let tree = Tree::read(&bytes).expect("an accepted table");
        spare += usize::from(differs_over_all(&tree));
        let tags = damaged_tags(&mut random, &tree);
        assert_eq!(fast::check_tags(&bytes, &tags), code(design::list::check_tags(&tree, &tags)));
    }
    assert!(listed > 2500 && spare > 600, "{listed} with a list, {spare} with another over all bodies");
}

#[test]
fn named_reaches_agree() {
    for case in reach_cases::CASES {
        let bytes = case.bytes();
        let tree = Tree::read(&bytes).expect(case.text);
        lists_say(&bytes, &tag_bytes(&tree, &case.list.iter().copied().map(Node).collect()));
    }
}

/// The two lists against each other, which is quick enough for many tables.
#[test]
fn the_two_lists_agree() {
    let mut random = Random::new(16);
    let (mut listed, mut refused) = (0, 0);
    for round in 0..60000 {
        let bytes = match round % 20 {
            0 => any_tower(&mut random),
            1 => any_deep(&mut random),
            2 => any_comb(&mut random),
            3..=10 => accepted_sharing(&mut random),
            11..=15 => accepted(&mut random),
            _ => damaged(&mut random),
        };
        let [words, sets] = LISTS.map(|list| {
            let mut tags = [7; 64];
            (list(&bytes, &mut tags), tags)
        });
        assert_eq!(sets, words, "{}", shown(&bytes));
        checks_say(&bytes, sets.0);
        assert!(sets.0 == 0 || sets.1 == [7; 64], "a refusal changed the tags: {}", shown(&bytes));
        refused += usize::from(sets.0 != 0);
        listed += usize::from(sets.0 == 0 && sets.1.iter().any(|byte| *byte != 0));
    }
    assert!(listed > 20000 && refused > 5000, "{listed} with a list, {refused} refused");
}

#[test]
fn named_steps_agree() {
    for case in standings() {
        let bytes = assemble(case.text).expect(case.text);
        assert!(same_step(&bytes, &[0], &case.before, case.node) >> 32 < 2, "{}", case.text);
        for step in STEPS {
            let mut state = to_fast(&case.before);
            step(&bytes, &[0], &mut state, case.node);
            assert!(state == to_fast(&case.after), "{}", case.text);
        }
    }
}

type Step = fn(&[u8], &[u8], &mut State, u16) -> u64;

/// In place, and on lent arrays.
const STEPS: [Step; 2] = [fast::step, |t, g, s, node| fast::step_lent(t, g, &mut s.lend(), node)];

fn answer_code(answer: Answer) -> u64 {
    match answer {
        Answer::Taken => 0,
        Answer::Answered(value) => 1 << 32 | u64::from(value),
        Answer::Refused(refusal) => 2 << 32 | u64::from(refusal.code()),
    }
}

/// Asks the reference and both ways for the same step, of which it tells the answer.
fn same_step(bytes: &[u8], tags: &[u8], begun: &circuit::State, node: u16) -> u64 {
    let mut wanted = begun.clone();
    let answer = answer_code(circuit::step(bytes, tags, &mut wanted, node));
    for step in STEPS {
        let mut found = to_fast(begun);
        assert_eq!(step(bytes, tags, &mut found, node), answer, "{node}: {}", shown(bytes));
        assert!(found == to_fast(&wanted), "{node}: {}", shown(bytes));
    }
    answer
}

/// In states that no start leads to a call waits without a tag, though the tags hold the list.
#[test]
fn named_waits_agree() {
    for case in waits() {
        let (bytes, tags) = case.table();
        let answer = same_step(&bytes, &tags, &case.before, case.node);
        assert_eq!(answer, 2 << 32 | 23 << 16 | u64::from(case.node), "{}", case.name);
    }
}

/// Started with both tags, and six steps with them: the seventh is refused by its own.
#[test]
fn the_last_step_goes_by_its_own_tags() {
    let bytes = assemble("fun f(x) = x  fun main(x) = beside(f(x), f(x))").expect("a text in order");
    for (tags, number) in [(0b10100, 22), (0b10000, 22), (0, 23), (0b100, 23)] {
        let mut state = circuit::State::zero();
        circuit::start(&bytes, &[0b10100], &[4], &mut state).expect("a start");
        for node in [2, 3, 5, 4, 6, 3] {
            assert_eq!(same_step(&bytes, &[0b10100], &state, node), 0, "{node}");
            circuit::step(&bytes, &[0b10100], &mut state, node);
        }
        assert_eq!(same_step(&bytes, &[tags], &state, 5), 2 << 32 | number << 16 | 5, "{tags:#b}");
    }
}

#[test]
fn steps_from_any_state_agree() {
    let mut random = Random::new(17);
    let (mut taken, mut refused) = (0, [0; 26]);
    let mut ask =
        |bytes: &[u8], tags: &[u8], begun: &circuit::State, node: u16| match same_step(bytes, tags, begun, node) {
            answer if answer >> 32 == 2 => refused[(answer >> 16 & 0xffff) as usize] += 1,
            _ => taken += 1,
        };
    for _ in 0..1500 {
        let nodes = random.within(1, 60);
        let bytes = accepted_of(&mut random, nodes);
        let tree = Tree::read(&bytes).expect("an accepted table");
        let tags = tags(&mut random, &tree);
        let mut begun = any_state(&mut random, &tree);
        for node in 0..=nodes as u16 + 1 {
            ask(&bytes, &tags, &begun, node);
        }
        ask(&bytes, &damaged_tags(&mut random, &tree), &begun, 1);
        ask(&damaged(&mut random), &tags, &begun, 1);
        ask(&too_wide(&mut random), &tags, &begun, 1);
        damage_state(&mut random, &tree, &mut begun);
        ask(&bytes, &tags, &begun, random.within(0, nodes + 1) as u16);
    }
    assert!(
        taken > 5000 && [10, 12, 20, 21, 22, 23, 24, 25].iter().all(|number| refused[*number] > 100),
        "{refused:?}"
    );
}
