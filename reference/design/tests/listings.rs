//! Tables with wanted lists have the lists that are wanted, and their sheets show all that a sheet may.

use design::difference::Outcome;
use design::generator::{accepted, accepted_sharing};
use design::list::{records, Record};
use design::listings::{any_listing, listing, longest, page_ends};
use design::random::Random;
use design::sheet::sheet;
use design::sheet_kinds::SheetKinds;
use design::{Function, Tree};
use numbers::{MOST_PAGES, PAGE_BYTES, SHEET_BYTES};

fn read(bytes: &[u8]) -> Tree {
    Tree::read(bytes).expect("an accepted table")
}

fn calls_of(list: &[Record], callee: usize) -> usize {
    list.iter().filter(|record| record.callee == Function(callee as u16)).count()
}

/// The table has to list just so many calls of each function.
fn lists(random: &mut Random, counts: &[usize]) {
    let tree = read(&listing(random, counts));
    assert_eq!(tree.function_count(), counts.len() + 1);
    let list = records(&tree);
    let found: Vec<usize> = (1..=counts.len()).map(|callee| calls_of(&list, callee)).collect();
    assert_eq!((found, list.len()), (counts.to_vec(), counts.iter().sum()));
}

#[test]
fn wanted_lists() {
    let mut random = Random::new(61);
    for _ in 0..3 {
        for counts in page_ends() {
            lists(&mut random, &counts);
        }
        for counts in [&[1, 1, 1, 2][..], &[0, 1, 0, 0, 2, 0], &[3, 1, 30, 1, 0, 2], &[0, 0], &[446], &[13; 31]] {
            lists(&mut random, counts);
        }
    }
}

#[test]
fn longest_lists() {
    let mut random = Random::new(62);
    for (resources, pages) in [(7, MOST_PAGES - 1), (15, MOST_PAGES - 1), (23, MOST_PAGES), (31, MOST_PAGES)] {
        let tree = read(&longest(&mut random, resources));
        assert_eq!((tree.function_count(), tree.node_count()), (resources + 1, 512));
        let list = records(&tree);
        assert_eq!((list.len(), sheet(&list).len()), (510, pages * PAGE_BYTES), "{resources}");
        assert!((1..=resources).all(|callee| calls_of(&list, callee) > 1));
    }
    assert_eq!(SHEET_BYTES, 19008);
}

/// Of the highest resource two calls are listed, so that no list has one call alone.
#[test]
fn no_list_of_one_call() {
    let mut random = Random::new(63);
    let mut listed = 0;
    for round in 0..2000 {
        let tree = read(&if round % 2 == 0 { accepted(&mut random) } else { accepted_sharing(&mut random) });
        let list = records(&tree);
        if let Some(last) = list.last() {
            assert!(calls_of(&list, last.callee.0.into()) > 1);
            listed += 1;
        }
    }
    assert!(listed > 500, "{listed}");
}

#[test]
fn all_kinds_of_sheets() -> Outcome {
    let (mut random, mut kinds) = (Random::new(64), SheetKinds::default());
    for resources in [7, 15, 23, 31] {
        kinds.note(&records(&read(&longest(&mut random, resources))));
    }
    for counts in page_ends() {
        kinds.note(&records(&read(&listing(&mut random, &counts))));
    }
    for _ in 0..600 {
        kinds.note(&records(&read(&any_listing(&mut random))));
    }
    kinds.often(1)
}
