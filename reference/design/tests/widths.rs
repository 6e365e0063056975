//! Widths: named designs, single steps, and what holds of every step from a start.

use design::asm::assemble;
use design::circuit::{possible, query, run_budget, run_list, start, step, step_with, Answer, Ending, State};
use design::damage::too_wide;
use design::difference::Outcome;
use design::generator::{accepted, accepted_of};
use design::kinds::Kinds;
use design::list::{arbiter_list, program, tags_of};
use design::random::Random;
use design::reading::{read, Reading};
use design::states::{any_state, arguments, holding_tags, tags};
use design::table::{compute, narrow};
use design::width_cases::{standings, CASES};
use design::width_kinds::{is_narrow, width_kinds, ASTRAY, STARTED};
use design::{check, Node, Refusal, Tree};

fn table(text: &str) -> Vec<u8> {
    assemble(text).expect("a text in order")
}

#[test]
fn named_designs() {
    for (text, arguments, value, count) in CASES {
        let bytes = table(text);
        let tree = Tree::read(&bytes).expect(text);
        let wanted = Reading { value, count: count.into() };
        assert_eq!(read(&tree, arguments, 1000), Some(wanted), "{text} of {arguments:?}");
        let tags = tags_of(&bytes).expect(text);
        let mut state = State::zero();
        start(&bytes, &tags, arguments, &mut state).expect(text);
        let told = run_budget(&bytes, &tags, &mut state, 1000);
        assert_eq!(told, Ok((count, Ending::Answered(value))), "{text} of {arguments:?}");
    }
}

#[test]
fn single_steps() {
    for case in standings() {
        let bytes = table(case.text);
        let mut state = case.before.clone();
        let answer = step(&bytes, &[0], &mut state, case.node);
        assert!(!matches!(answer, Answer::Refused(_)), "{}: {answer:?}", case.text);
        assert!(state == case.after, "{}: {:?}, {:?}", case.text, &state.nodes[..4], state.functions[0]);
        if let Answer::Answered(value) = answer {
            assert_eq!(value, case.after.nodes[usize::from(case.node) - 1].value, "{}", case.text);
        }
    }
}

/// 25 is the table's: it comes before the tags, the arguments, the node asked at and the state.
#[test]
fn a_wide_constant_comes_before_all_that_is_not_the_table() {
    let bytes = table("fun f(x): 4 = x  fun main(x): 4 = f(16)");
    let refusal = Refusal { number: 25, place: Node(3) };
    let mut state = State::zero();
    state.nodes[0].status = 4;
    let before = state.clone();
    for tags in [&[0][..], &[1], &[0x80], &[], &[0, 0]] {
        for arguments in [&[][..], &[1], &[1, 2]] {
            assert_eq!(start(&bytes, tags, arguments, &mut state), Err(refusal));
        }
        for node in [0, 1, 4, 600] {
            assert_eq!(step(&bytes, tags, &mut state, node), Answer::Refused(refusal));
        }
        assert_eq!(run_list(&bytes, tags, &mut state, &[0]), Err(refusal));
        assert_eq!(run_budget(&bytes, tags, &mut state, 0), Err(refusal));
        assert_eq!(query(&bytes, tags, &state), Err(refusal));
    }
    assert!(state == before);
    assert_eq!(program(&bytes), "refused 25 3\n");
}

#[test]
fn too_wide_tables_are_refused_25() {
    let mut random = Random::new(21);
    let refused = |bytes: Vec<u8>| match check(&bytes) {
        Err(refusal) => {
            assert_eq!(refusal.number, 25);
            true
        }
        Ok(()) => false,
    };
    let count = (0..1000).filter(|_| refused(too_wide(&mut random))).count();
    assert!(count > 900, "{count}");
}

/// Whether no register up to F and no value up to N is too wide for its function.
fn all_fit(tree: &Tree, state: &State) -> bool {
    let fits = |function, value: u32| tree.keep(function, value) == value;
    tree.nodes().all(|node| fits(tree.owner(node), state.node(node).value))
        && tree
            .functions()
            .all(|function| state.function(function).registers.iter().all(|value| fits(function, *value)))
}

#[test]
fn steps_from_a_start_keep_to_the_widths() -> Outcome {
    let (mut random, mut kinds) = (Random::new(22), Kinds::default());
    let (mut narrow, mut cut_at_start) = (0, 0);
    for _ in 0..1200 {
        let bytes = accepted(&mut random);
        let tree = Tree::read(&bytes).expect("an accepted table");
        let (tags, arguments) = (tags(&mut random, &tree), arguments(&mut random, &tree));
        let mut state = State::zero();
        start(&bytes, &holding_tags(&mut random, &tree), &arguments, &mut state).expect("a start");
        narrow += usize::from(is_narrow(&tree));
        cut_at_start += usize::from(state.function(tree.main()).registers[..arguments.len()] != arguments);
        for _ in 0..100 {
            assert!(all_fit(&tree, &state));
            let nodes: Vec<Node> = possible(&tree, &tags, &state).collect();
            if nodes.is_empty() {
                break;
            }
            let node = random.pick(&nodes);
            kinds.note(width_kinds(&tree, &state, node));
            step_with(&tree, &tags, &mut state, node.0);
        }
    }
    assert!(narrow > 800 && cut_at_start > 200, "{narrow} narrow, {cut_at_start} cut at the start");
    kinds.often(&STARTED, 40)?;
    kinds.never(&ASTRAY)
}

#[test]
fn steps_from_any_state_meet_wide_values() -> Outcome {
    let (mut random, mut kinds) = (Random::new(23), Kinds::default());
    for _ in 0..5000 {
        let nodes = random.within(1, 60);
        let bytes = accepted_of(&mut random, nodes);
        let tree = Tree::read(&bytes).expect("an accepted table");
        let tags = tags(&mut random, &tree);
        let state = any_state(&mut random, &tree);
        for node in possible(&tree, &tags, &state) {
            kinds.note(width_kinds(&tree, &state, node));
        }
    }
    kinds.often(&ASTRAY, 30)
}

/// The same design with all bits in every function has the same list, and counts its steps by the same rules.
#[test]
fn the_list_does_not_depend_on_widths() {
    let mut random = Random::new(24);
    let (mut listed, mut other_values) = (0, 0);
    for _ in 0..600 {
        let bytes = accepted(&mut random);
        let tree = Tree::read(&bytes).expect("an accepted table");
        let mut widest = bytes.clone();
        for function in 0..tree.function_count() {
            widest[5 + 4 * function] = 0;
        }
        let wide = Tree::read(&widest).expect("an accepted table");
        let list = arbiter_list(&tree);
        assert_eq!(arbiter_list(&wide), list);
        listed += usize::from(!list.is_empty());
        // A design without an if takes the same way with any widths.
        let arguments = arguments(&mut random, &tree);
        if tree.nodes().all(|node| tree.kind(node) != design::Kind::If) {
            let (one, other) = (read(&tree, &arguments, 500), read(&wide, &arguments, 500));
            assert_eq!(one.map(|reading| reading.count), other.map(|reading| reading.count));
            other_values += usize::from(one != other);
        }
    }
    assert!(listed > 100 && other_values > 20, "{listed} lists, {other_values} values that differ");
}

/// Of add, subtract, and, or, xor and double it makes no difference whether the operands were cut before; of halve,
/// equal and less it does.
#[test]
fn cutting_before_and_after() {
    let mut random = Random::new(25);
    for width in 1..=32 {
        let mut differ = [0; 11];
        for _ in 0..2000 {
            let (one, other) = (random.word(), random.word());
            // Now and then two that differ in a bit that is cut.
            let operands = [one, random.pick(&[other, one ^ (1u64 << width) as u32])];
            let cut = operands.map(|value| narrow(width, value));
            assert!(cut.iter().all(|value| u64::from(*value) < 1 << width));
            for operation in 0..=10 {
                let values = [compute(operation, &operands), compute(operation, &cut)];
                differ[usize::from(operation)] += usize::from(narrow(width, values[0]) != narrow(width, values[1]));
            }
        }
        assert_eq!(differ[..6], [0; 6], "{width} bits");
        assert!(width == 32 || [6, 8, 9].iter().all(|operation| differ[*operation] > 0), "{width} bits: {differ:?}");
    }
}
