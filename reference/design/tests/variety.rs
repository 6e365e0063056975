//! The accepted tables differ: what the rules speak of occurs often enough among them.

use std::collections::BTreeMap;

use design::features::features;
use design::generator::accepted;
use design::random::Random;
use design::Tree;

#[test]
fn all_that_the_rules_speak_of_occurs() {
    let mut random = Random::new(9);
    let mut seen: BTreeMap<String, usize> = BTreeMap::new();
    for _ in 0..4000 {
        let tree = Tree::read(&accepted(&mut random)).expect("an accepted table");
        for feature in features(&tree) {
            *seen.entry(feature).or_insert(0) += 1;
        }
    }
    println!("{seen:#?}");
    assert_eq!(seen.len(), 45);
    let rare: Vec<_> = seen.iter().filter(|(_, count)| **count < 100).collect();
    assert!(rare.is_empty(), "{rare:?}");
}
