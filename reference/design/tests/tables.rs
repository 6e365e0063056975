//! The generator makes what it promises: accepted tables of all sizes, and every refusal.

use std::collections::BTreeMap;

use design::asm::{assemble, disassemble};
use design::check::wide_constant;
use design::damage::damaged;
use design::generator::{accepted, accepted_of};
use design::random::Random;
use design::{check, Node, Table};

#[test]
fn accepted_tables_are_accepted() {
    let mut random = Random::new(1);
    let mut sizes = BTreeMap::new();
    for _ in 0..4000 {
        let bytes = accepted(&mut random);
        assert_eq!(check(&bytes), Ok(()));
        let table = Table::new(&bytes);
        *sizes.entry((table.function_count() == 32, table.node_count() / 128)).or_insert(0) += 1;
    }
    for nodes in 0..=4 {
        assert!(sizes.contains_key(&(true, nodes)), "32 functions, nodes from {}: {sizes:?}", nodes * 128);
        assert!(sizes.contains_key(&(false, nodes)), "fewer functions, nodes from {}: {sizes:?}", nodes * 128);
    }
}

#[test]
fn sizes_asked_for_are_met() {
    let mut random = Random::new(2);
    for nodes in [1, 2, 3, 64, 128, 256, 511, 512] {
        let bytes = accepted_of(&mut random, nodes);
        assert_eq!(check(&bytes), Ok(()));
        assert_eq!(usize::from(Table::new(&bytes).node_count()), nodes);
    }
}

#[test]
fn each_refusal_occurs_often() {
    let mut random = Random::new(3);
    let mut seen: BTreeMap<(u16, bool), usize> = BTreeMap::new();
    let mut beside: BTreeMap<u16, usize> = BTreeMap::new();
    for _ in 0..10000 {
        let bytes = damaged(&mut random);
        if let Err(refusal) = check(&bytes) {
            *seen.entry((refusal.number, refusal.place != Node(0))).or_insert(0) += 1;
            // Links and fields are in order, so that it can be told whether 25 would come later.
            if (6..=9).contains(&refusal.number) && wide_constant(&Table::new(&bytes)).is_some() {
                *beside.entry(refusal.number).or_insert(0) += 1;
            }
        }
    }
    println!("{seen:?}, beside 25 {beside:?}");
    for number in 6..=9 {
        assert!(beside.get(&number).is_some_and(|count| *count >= 20), "{number} beside 25: {beside:?}");
    }
    let often = |number, at_node| seen.get(&(number, at_node)).copied().unwrap_or(0) >= 100;
    for number in 1..=5 {
        assert!(often(number, false), "{number} at place 0: {seen:?}");
    }
    for number in (4..=9).chain([25]) {
        assert!(often(number, true), "{number} at a node: {seen:?}");
    }
}

#[test]
fn a_disassembled_table_assembles_to_the_same_design() {
    let mut random = Random::new(4);
    for _ in 0..2000 {
        let bytes = accepted(&mut random);
        let text = disassemble(&bytes).expect("an accepted table");
        let again = assemble(&text).expect("text of an accepted table");
        // The numbering may differ once, as assembled nodes are in preorder; then it stays.
        assert_eq!(again.len(), bytes.len());
        let heads = |bytes: &[u8]| -> Vec<(u8, u8)> {
            let table = Table::new(bytes);
            table.functions().map(|function| (table.parameter_count(function), table.width_byte(function))).collect()
        };
        assert_eq!(heads(&again), heads(&bytes));
        assert_eq!(check(&again), Ok(()));
        let text = disassemble(&again).expect("an assembled table");
        assert_eq!(assemble(&text).as_ref(), Ok(&again));
    }
}
