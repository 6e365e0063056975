//! The arbiter sheet, per table. Each way checks the table and makes its list first.

use std::cell::RefCell;
use std::hint::black_box;

use crate::designs::{tables, TABLE_SIZES};
use crate::measure::{medians, Section};
use crate::ratios::Ratios;
use design::listings::longest;
use design::random::Random;
use design::sheet::fill_sheet;
use numbers::{MOST_FUNCTIONS, SHEET_BYTES};

const BOUND: f64 = 1.5;

const COLUMNS: [(&str, usize); 3] = [("proved ns", 0), ("fast ns", 0), ("ratio", 2)];

pub fn section(ratios: &mut Ratios) {
    let title = "table check, arbiter list and sheet, median time per accepted table";
    let section = Section::new(title, "nodes", &COLUMNS);
    for size in TABLE_SIZES {
        let ratio = row(&section, &size.to_string(), &tables(size));
        ratios.add(&format!("sheet, {size} nodes"), ratio, BOUND);
    }
    let longest = longest(&mut Random::new(1), MOST_FUNCTIONS - 1);
    let ratio = row(&section, "longest list", &[longest]);
    ratios.add("sheet, longest list", ratio, BOUND);
}

/// All three have to come to the same text before two are timed; bytes past the sheet are kept.
fn all_agree(table: &[u8]) {
    let [mut by_set, mut proved, mut fast] = [[7; SHEET_BYTES]; 3];
    let bytes = fill_sheet(table, &mut by_set).expect("an accepted table");
    let answer = 1 << 32 | bytes as u64;
    assert_eq!((compare::sheet_fill(table, &mut proved), fast::sheet(table, &mut fast)), (answer, answer));
    assert!(proved == by_set && fast == by_set);
}

/// Prints a row; returns the ratio.
fn row(section: &Section, label: &str, tables: &[Vec<u8>]) -> f64 {
    tables.iter().for_each(|table| all_agree(table));
    // One text for all: a new one would be cleared each time, which is no part of the work.
    let text = RefCell::new([0; SHEET_BYTES]);
    let proved = |table: &Vec<u8>| {
        let text = &mut *text.borrow_mut();
        black_box(compare::sheet_fill(black_box(table), text));
        black_box(text);
    };
    let fast = |table: &Vec<u8>| {
        let text = &mut *text.borrow_mut();
        black_box(fast::sheet(black_box(table), text));
        black_box(text);
    };
    let times = medians(tables, 0, [&proved, &fast]);
    section.row(label, &[&times.nanos[..], &times.ratios[..]].concat());
    times.ratios[0]
}
