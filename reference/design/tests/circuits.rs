//! The circuit against the plain reading, over random designs and random schedules.

use design::circuit::{check_state, query, run_budget, run_list, start, step, step_with, Answer, Ending, State};
use design::generator::accepted;
use design::random::Random;
use design::reading::read;
use design::states::{any_state, arguments, damage_state, holding_tags, tags};
use design::{Node, Refusal, Tree};

const LIMIT: u32 = 1500;

/// Under the tags of the start, and under any others.
#[test]
fn runs_come_to_what_the_reading_says() {
    let mut random = Random::new(6);
    let mut ended = 0;
    for _ in 0..400 {
        let bytes = accepted(&mut random);
        let tree = Tree::read(&bytes).expect("an accepted table");
        let (others, arguments) = (tags(&mut random, &tree), arguments(&mut random, &tree));
        let own = holding_tags(&mut random, &tree);
        let mut begun = State::zero();
        start(&bytes, &own, &arguments, &mut begun).expect("a start");
        let runs = [own, others].map(|tags| run_budget(&bytes, &tags, &mut begun.clone(), LIMIT));
        match read(&tree, &arguments, LIMIT.into()) {
            Some(reading) => {
                assert_eq!(runs, [Ok((reading.count as u32, Ending::Answered(reading.value))); 2]);
                ended += 1;
            }
            None => assert_eq!(runs, [Ok((LIMIT, Ending::Spent)); 2]),
        }
    }
    assert!(ended > 200, "{ended}");
}

/// Asks at random nodes; counts steps and watches who enters and leaves.
fn random_schedule(random: &mut Random, bytes: &[u8]) -> Option<()> {
    let tree = Tree::read(bytes).expect("an accepted table");
    let tags = holding_tags(random, &tree);
    let arguments = arguments(random, &tree);
    let reading = read(&tree, &arguments, 300)?;
    let mut state = State::zero();
    start(bytes, &tags, &arguments, &mut state).expect("a start");
    let mut taken_at = vec![0u64; tree.node_count() + 1];
    let mut inside = vec![0i64; tree.function_count() + 1];
    loop {
        let node = random.below(tree.node_count() + 2) as u16;
        let before = state.clone();
        let answer = step_with(&tree, &tags, &mut state, node);
        if let Answer::Refused(refusal) = answer {
            assert!(state == before);
            // What a start asks of the tags is enough: no untagged call ever has to wait.
            assert!([12, 21, 22].contains(&refusal.number), "{refusal:?}");
            continue;
        }
        assert!(state != before);
        taken_at[usize::from(node)] += 1;
        if let Some(callee) = tree.other_callee(Node(node)) {
            inside[usize::from(callee.0)] += match taken_at[usize::from(node)] % 3 {
                2 => 1,
                0 => -1,
                _ => 0,
            };
        }
        for function in tree.functions() {
            let occupied = state.function(function).occupant != Node(0);
            assert_eq!(inside[usize::from(function.0)], i64::from(occupied));
        }
        let taken: u64 = taken_at.iter().sum();
        if let Answer::Answered(value) = answer {
            assert_eq!((value, taken), (reading.value, reading.count));
            assert_eq!(query(bytes, &tags, &state), Ok(None));
            return Some(());
        }
        assert!(taken < reading.count);
    }
}

#[test]
fn every_schedule_answers_alike() {
    let mut random = Random::new(7);
    let mut ended = 0;
    for _ in 0..600 {
        let bytes = accepted(&mut random);
        if bytes.len() < 1000 {
            ended += usize::from(random_schedule(&mut random, &bytes).is_some());
        }
    }
    assert!(ended > 200, "{ended}");
}

#[test]
fn any_state_is_settled() {
    let mut random = Random::new(8);
    let mut seen = [0; 25];
    for _ in 0..300 {
        let bytes = accepted(&mut random);
        let tree = Tree::read(&bytes).expect("an accepted table");
        let tags = tags(&mut random, &tree);
        let mut state = any_state(&mut random, &tree);
        if random.once_in(8) {
            damage_state(&mut random, &tree, &mut state);
        }
        let mut lowest = None;
        for node in 0..=tree.node_count() as u16 + 1 {
            let mut after = state.clone();
            match step_with(&tree, &tags, &mut after, node) {
                Answer::Refused(refusal) => {
                    assert!(after == state);
                    seen[usize::from(refusal.number)] += 1;
                }
                _ => {
                    assert!(after != state);
                    lowest = lowest.or(Some(Node(node)));
                    assert_eq!(after.nodes[tree.node_count()..], state.nodes[tree.node_count()..]);
                    assert_eq!(after.functions[tree.function_count()..], state.functions[tree.function_count()..]);
                }
            }
        }
        match query(&bytes, &tags, &state) {
            Ok(found) => {
                assert_eq!(found, lowest);
                let ending = run_budget(&bytes, &tags, &mut state.clone(), 0).expect("a state in order");
                let main_done = state.node(tree.root(tree.main())).status == 3;
                assert_eq!(ending == (0, Ending::Spent), lowest.is_some());
                assert_eq!(matches!(ending, (0, Ending::Answered(_))), main_done);
            }
            Err(refusal) => assert_eq!(refusal, Refusal { number: 24, place: Node(0) }),
        }
    }
    for number in [12, 20, 21, 22, 23, 24] {
        assert!(seen[number] > 20, "{number}: {seen:?}");
    }
}

#[test]
fn order_of_the_refusals() {
    let bytes = design::asm::assemble("fun f(x) = x  fun main(x) = f(x)").expect("a text in order");
    let refused = |number, place| Refusal { number, place: Node(place) };
    let mut state = State::zero();
    assert_eq!(start(&bytes[..9], &[1, 1], &[], &mut state), Err(refused(3, 0)));
    assert_eq!(start(&bytes, &[1, 1], &[], &mut state), Err(refused(10, 0)));
    assert_eq!(start(&bytes, &[1], &[], &mut state), Err(refused(10, 1)));
    assert_eq!(start(&bytes, &[0], &[], &mut state), Err(refused(11, 0)));
    assert_eq!(start(&bytes, &[0], &[1, 2], &mut state), Err(refused(11, 0)));
    assert!(state == State::zero());
    // With two calls on the list, which nothing but a start looks at; `start_cases.rs` has more of these.
    let listed = design::asm::assemble("fun f(x) = x  fun main(x) = beside(f(x), f(x))").expect("a text in order");
    assert_eq!(start(&listed, &[0b1], &[], &mut state), Err(refused(10, 1)));
    assert_eq!(start(&listed, &[0b100], &[], &mut state), Err(refused(11, 0)));
    assert_eq!(start(&listed, &[0b100], &[5], &mut state), Err(refused(26, 5)));
    assert!(state == State::zero());
    assert_eq!(query(&listed, &[0], &state), Ok(None));
    assert_eq!(run_list(&listed, &[0], &mut state, &[]), Ok((0, None)));
    assert_eq!(run_budget(&listed, &[0], &mut state, 0), Ok((0, Ending::AtRest)));
    assert_eq!(step(&listed, &[0], &mut state, 3), Answer::Refused(refused(21, 3)));
    start(&bytes, &[0], &[5], &mut state).expect("a start");
    let mut broken = state.clone();
    broken.nodes[1].status = 4;
    let mut ask = |tags: &[u8], node| step(&bytes, tags, &mut broken, node);
    assert_eq!(ask(&[1], 0), Answer::Refused(refused(10, 1)));
    assert_eq!(ask(&[0], 0), Answer::Refused(refused(12, 0)));
    assert_eq!(ask(&[0], 4), Answer::Refused(refused(12, 0)));
    assert_eq!(ask(&[0], 1), Answer::Refused(refused(24, 0)));
    let mut far = state.clone();
    far.functions[1].occupant = Node(4);
    assert_eq!(run_list(&bytes, &[0], &mut far, &[]), Err(refused(24, 0)));
    assert_eq!(run_budget(&bytes, &[0], &mut far, 0), Err(refused(24, 0)));
    assert_eq!(query(&bytes, &[0], &far), Err(refused(24, 0)));
    far.functions[1].occupant = Node(3);
    far.functions[2].occupant = Node(9);
    far.nodes[3].status = 200;
    assert_eq!(check_state(&Tree::read(&bytes).expect("accepted"), &far), Ok(()));
}
