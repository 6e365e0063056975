//! Towers and deep chains are accepted and are what they promise to be.

use design::features::depth;
use design::list::records;
use design::random::Random;
use design::towers::{any_comb, any_deep, any_tower, deep_beside, deep_calls, tower_beside, tower_of_arguments};
use design::{Function, Node, Tree};

fn read(bytes: &[u8]) -> Tree {
    Tree::read(bytes).expect("an accepted table")
}

fn main_depth(tree: &Tree) -> usize {
    depth(tree, tree.root(tree.main()))
}

/// How often each function from the second on calls the one below it.
fn calls_below(tree: &Tree) -> Vec<usize> {
    let calls = |function: Function| {
        let below = Function(function.0 - 1);
        tree.nodes_of(function).iter().filter(|node: &&Node| tree.other_callee(**node) == Some(below)).count()
    };
    tree.functions().skip(1).map(calls).collect()
}

#[test]
fn full_towers() {
    for (bytes, listed) in [(tower_beside(), 31 * 8), (tower_of_arguments(), 0)] {
        let tree = read(&bytes);
        assert_eq!((tree.function_count(), tree.node_count()), (32, 512));
        assert_eq!(calls_below(&tree), [8; 31]);
        assert!(records(&tree).len() >= listed);
    }
}

#[test]
fn any_towers() {
    let mut random = Random::new(21);
    let mut most = 0;
    for _ in 0..200 {
        let tree = read(&any_tower(&mut random));
        let calls = calls_below(&tree);
        assert!(calls.iter().all(|count| (1..=8).contains(count)), "{calls:?}");
        most = most.max(calls.iter().sum());
    }
    assert!(most > 200, "{most}");
}

#[test]
fn deep_chains() {
    let mut random = Random::new(22);
    let mut tables = vec![deep_calls()];
    tables.extend((0..100).map(|_| any_deep(&mut random)));
    for bytes in tables {
        let tree = read(&bytes);
        assert_eq!(tree.node_count(), 512);
        assert!(main_depth(&tree) >= 500);
        assert!(records(&tree).len() >= 2);
    }
}

#[test]
fn combs() {
    let tree = read(&deep_beside());
    assert_eq!((tree.node_count(), records(&tree).len(), main_depth(&tree)), (512, 256, 255));
    let mut random = Random::new(23);
    for _ in 0..100 {
        let tree = read(&any_comb(&mut random));
        assert!(tree.node_count() >= 508 && main_depth(&tree) > 150);
    }
}
