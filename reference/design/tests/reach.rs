//! What main reaches: named designs, the same by another way, the readings that tempt, and what the generator makes.

use std::collections::{BTreeMap, BTreeSet};

use design::damage::damaged_spare;
use design::generator::{
    accepted, accepted_of, accepted_sharing, accepted_sharing_of, accepted_spare, accepted_spare_of,
};
use design::list::{arbiter_list, list_over, list_over_all, Calls, MayHappen};
use design::random::Random;
use design::reach::{reached, Functions};
use design::reach_cases::CASES;
use design::{check, Function, Node, Tree};

fn read(bytes: &[u8]) -> Tree {
    Tree::read(bytes).expect("an accepted table")
}

/// What a body calls, its own function left out.
fn called(tree: &Tree, function: Function) -> Functions {
    tree.nodes_of(function).iter().filter_map(|node| tree.other_callee(*node)).collect()
}

fn has_spare(tree: &Tree) -> bool {
    reached(tree).len() < tree.function_count()
}

#[test]
fn named_designs() {
    for case in CASES {
        let tree = read(&case.bytes());
        let functions: Vec<u16> = reached(&tree).iter().map(|function| function.0).collect();
        let list: Vec<u16> = arbiter_list(&tree).iter().map(|node| node.0).collect();
        assert_eq!((&functions[..], &list[..]), (case.reached, case.list), "{}", case.text);
    }
}

/// Main reaches itself and what is called by the calls that may happen at its root; and all functions just where
/// somebody else calls each of them but main, for whoever does stands above it.
#[test]
fn reached_by_another_way() {
    let mut random = Random::new(71);
    for round in 0..3000 {
        let tree = read(&if round % 2 == 0 { accepted(&mut random) } else { accepted_spare(&mut random) });
        let may_happen = MayHappen::of(&tree);
        let calls = may_happen.at(tree.root(tree.main()));
        let mut wanted: Functions = calls.iter().filter_map(|call| tree.other_callee(*call)).collect();
        wanted.insert(tree.main());
        assert_eq!(reached(&tree), wanted);
        let of_others: Functions = tree.functions().flat_map(|function| called(&tree, function)).collect();
        assert_eq!(has_spare(&tree), of_others.len() + 1 < tree.function_count());
        // What is listed stands in a reached body.
        assert!(arbiter_list(&tree).iter().all(|call| wanted.contains(&tree.owner(*call))));
    }
}

type Reading = fn(&Tree) -> Calls;

/// Readings of the request that are wrong, and in how many of 4000 tables they have to come to another list.
const WRONG: [(&str, Reading, usize); 5] = [
    ("all bodies", list_over_all, 500),
    ("all bodies, and then no call of a spare body", over_all_less_spare, 120),
    ("what somebody else calls", over_called, 250),
    ("main and what its body calls", over_two_levels, 400),
    ("what is called, and main is not", without_main, 500),
];

fn over_all_less_spare(tree: &Tree) -> Calls {
    let reached = reached(tree);
    list_over_all(tree).into_iter().filter(|call| reached.contains(&tree.owner(*call))).collect()
}

fn over_called(tree: &Tree) -> Calls {
    let mut functions: Functions = tree.functions().flat_map(|function| called(tree, function)).collect();
    functions.insert(tree.main());
    list_over(tree, &functions)
}

fn over_two_levels(tree: &Tree) -> Calls {
    let mut functions = called(tree, tree.main());
    functions.insert(tree.main());
    list_over(tree, &functions)
}

fn without_main(tree: &Tree) -> Calls {
    let mut functions = reached(tree);
    functions.remove(&tree.main());
    list_over(tree, &functions)
}

#[test]
fn wrong_readings_are_told_apart() {
    let mut random = Random::new(72);
    let mut differ = [0; WRONG.len()];
    for round in 0..4000 {
        let tree = read(&if round % 2 == 0 { accepted(&mut random) } else { accepted_sharing(&mut random) });
        let list = arbiter_list(&tree);
        for (count, (_, reading, _)) in differ.iter_mut().zip(WRONG) {
            *count += usize::from(reading(&tree) != list);
        }
    }
    for ((name, reading, fewest), count) in WRONG.into_iter().zip(differ) {
        println!("{name}: another list in {count} tables");
        assert!(count >= fewest, "{name}: {count}, wanted {fewest}");
        let is_told = CASES.iter().any(|case| {
            let list: Vec<u16> = reading(&read(&case.bytes())).iter().map(|node| node.0).collect();
            list != case.list
        });
        assert!(is_told, "{name} by a named design");
    }
}

/// About a third of the designs have spare functions, and in the others main reaches all.
#[test]
fn a_third_of_the_designs_have_spare_functions() {
    let mut random = Random::new(73);
    type Make = fn(&mut Random) -> Vec<u8>;
    let makes: [(&str, Make); 4] = [
        ("any", accepted),
        ("sharing", accepted_sharing),
        ("any of 30", |random| accepted_of(random, 30)),
        ("sharing of 30", |random| accepted_sharing_of(random, 30)),
    ];
    for (name, make) in makes {
        let count = (0..3000).filter(|_| has_spare(&read(&make(&mut random)))).count();
        println!("{name}: {count} of 3000");
        assert!((900..1100).contains(&count), "{name}: {count}");
    }
}

#[test]
fn spare_functions_where_they_are_wanted() {
    let mut random = Random::new(74);
    for nodes in [2, 3, 10, 64, 512] {
        let (mut functions, mut spare) = (0, 0);
        for _ in 0..100 {
            let tree = read(&accepted_spare_of(&mut random, nodes));
            assert!(tree.node_count() == nodes && has_spare(&tree));
            functions += tree.function_count();
            spare += tree.function_count() - reached(&tree).len();
        }
        println!("{nodes} nodes: {spare} of {functions} functions spare");
        // Of two functions one is main, so a third are not to be had in small designs.
        assert!(4 * spare >= functions && (nodes < 10 || 2 * spare <= functions), "{spare} of {functions}");
    }
}

/// The ends of what a table can hold, with spare functions and without.
#[test]
fn most_and_fewest() {
    let mut random = Random::new(75);
    let mut seen = BTreeSet::new();
    for _ in 0..800 {
        for nodes in [1, 2, 32, 512] {
            let tree = read(&accepted_of(&mut random, nodes));
            seen.insert((nodes, tree.function_count(), has_spare(&tree)));
        }
    }
    for wanted in [(1, 1, false), (2, 1, false), (2, 2, false), (2, 2, true)] {
        assert!(seen.contains(&wanted), "{wanted:?}");
    }
    for nodes in [32, 512] {
        for wanted in [(nodes, 1, false), (nodes, 2, false), (nodes, 2, true), (nodes, 32, false), (nodes, 32, true)] {
            assert!(seen.contains(&wanted), "{wanted:?}");
        }
    }
}

/// A spare body is checked like any other: each refusal that names a node, and those of the function records.
#[test]
fn faults_out_of_reach() {
    let mut random = Random::new(76);
    let mut seen: BTreeMap<(u16, bool), usize> = BTreeMap::new();
    for _ in 0..8000 {
        let (bytes, spare) = damaged_spare(&mut random);
        if let Err(refusal) = check(&bytes) {
            let at_node = refusal.place != Node(0);
            if !at_node || spare.contains(&refusal.place) {
                *seen.entry((refusal.number, at_node)).or_insert(0) += 1;
            }
        }
    }
    println!("{seen:?}");
    let at_nodes = (4..=9).chain([25]).map(|number| (number, true));
    for cause in at_nodes.chain([(4, false), (5, false)]) {
        assert!(seen.get(&cause).is_some_and(|count| *count >= 100), "{cause:?}: {seen:?}");
    }
}
