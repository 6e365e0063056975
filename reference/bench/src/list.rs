//! The arbiter list, per table. Each way checks the table first.

use std::hint::black_box;

use crate::designs::{spare_tables, tables, TABLE_SIZES};
use crate::measure::{medians, Section};
use crate::ratios::Ratios;
use design::list::fill_tags;
use design::towers::{deep_beside, deep_calls, tower_beside, tower_of_arguments};
use numbers::MOST_NODES;

/// Against the bit sets; the words are another way, shown beside it.
const BOUND: f64 = 1.15;

const COLUMNS: [(&str, usize); 6] = [
    ("set by set ns", 0),
    ("proved ns", 0),
    ("fast (bit sets) ns", 0),
    ("fast (words) ns", 0),
    ("ratio to bit sets", 2),
    ("ratio to words", 2),
];

pub fn section(ratios: &mut Ratios) {
    let title = "table check and arbiter list, median time per accepted table";
    let section = Section::new(title, "nodes", &COLUMNS);
    for size in TABLE_SIZES {
        let ratio = row(&section, &size.to_string(), &tables(size));
        ratios.add(&format!("list, {size} nodes"), ratio, BOUND);
    }
    let label = format!("spare, {MOST_NODES} nodes");
    let ratio = row(&section, &label, &spare_tables(MOST_NODES));
    ratios.add(&format!("list, {label}"), ratio, BOUND);
    let ends = [
        ("tower, beside", tower_beside()),
        ("tower, arguments", tower_of_arguments()),
        ("deep calls", deep_calls()),
        ("deep beside", deep_beside()),
    ];
    for (label, table) in ends {
        let ratio = row(&section, label, &[table]);
        ratios.add(&format!("list, {label}"), ratio, BOUND);
    }
}

fn tag_length(table: &[u8]) -> usize {
    usize::from(u16::from_le_bytes([table[2], table[3]])).div_ceil(8)
}

/// All four have to come to the same tags before they are timed.
fn all_agree(table: &[u8]) {
    let (mut by_set, mut proved, mut sets, mut words) = ([0; 64], [0; 64], [0xff; 64], [0xff; 64]);
    let length = tag_length(table);
    assert_eq!(fill_tags(table, &mut by_set[..length]), Ok(()));
    assert_eq!(compare::list_fill_tags(table, &mut proved[..length]), 0);
    assert_eq!((fast::list_by_sets(table, &mut sets), fast::list(table, &mut words)), (0, 0));
    assert_eq!((proved, sets, words), (by_set, by_set, by_set));
}

/// Prints a row; returns the ratio to the bit sets.
fn row(section: &Section, label: &str, tables: &[Vec<u8>]) -> f64 {
    tables.iter().for_each(|table| all_agree(table));
    let by_set = |table: &Vec<u8>| {
        let mut tags = [0; 64];
        let filled = fill_tags(black_box(table), &mut tags[..tag_length(table)]);
        assert!(filled.is_ok());
        black_box(tags);
    };
    let proved = |table: &Vec<u8>| {
        let mut tags = [0; 64];
        black_box(compare::list_fill_tags(black_box(table), &mut tags[..tag_length(table)]));
        black_box(tags);
    };
    let sets = |table: &Vec<u8>| {
        let mut tags = [0; 64];
        black_box(fast::list_by_sets(black_box(table), &mut tags));
        black_box(tags);
    };
    let words = |table: &Vec<u8>| {
        let mut tags = [0; 64];
        black_box(fast::list(black_box(table), &mut tags));
        black_box(tags);
    };
    let times = medians(tables, 1, [&by_set, &proved, &sets, &words]);
    section.row(label, &[&times.nanos[..], &times.ratios[..]].concat());
    times.ratios[0]
}
