//! The table check, per table.

use std::hint::black_box;

use crate::designs::{tables, TABLE_SIZES};
use crate::measure::{medians, Section};
use crate::ratios::Ratios;

/// Against the plain one; the packed one is another way, shown beside it.
const BOUND: f64 = 1.15;

const COLUMNS: [(&str, usize); 5] =
    [("proved ns", 0), ("fast ns", 0), ("fast (packed) ns", 0), ("ratio", 2), ("ratio to packed", 2)];

pub fn section(ratios: &mut Ratios) {
    let section = Section::new("table check, median time per accepted table", "nodes", &COLUMNS);
    for size in TABLE_SIZES {
        let tables = tables(size);
        tables.iter().for_each(|table| all_agree(table));
        let proved = |table: &Vec<u8>| {
            black_box(compare::table_check(black_box(table)));
        };
        let fast = |table: &Vec<u8>| {
            black_box(fast::check(black_box(table)));
        };
        let packed = |table: &Vec<u8>| {
            black_box(fast::check_packed(black_box(table)));
        };
        let times = medians(&tables, 0, [&proved, &fast, &packed]);
        section.row(&size.to_string(), &[&times.nanos[..], &times.ratios[..]].concat());
        ratios.add(&format!("check, {size} nodes"), times.ratios[0], BOUND);
    }
}

/// All three have to accept a table before they are timed.
fn all_agree(table: &[u8]) {
    assert_eq!((compare::table_check(table), fast::check(table), fast::check_packed(table)), (0, 0, 0));
}
