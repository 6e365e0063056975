//! The numbers of children by operation, and the check that goes by them.

use std::collections::BTreeMap;

use design::difference::code;
use design::operation_cases::{large, small, Case, LARGE_ANSWERS, SMALL_ANSWERS, WORDS, WORD_ANSWERS};
use design::{check, operation_counts};

/// The operations of document 01 in its own order: number, fewest and most children.
const SAID: [(u8, u16, u16); 11] = [
    (0, 2, 2),
    (1, 2, 2),
    (2, 2, 2),
    (3, 2, 2),
    (4, 2, 2),
    (8, 2, 2),
    (9, 2, 2),
    (5, 1, 1),
    (6, 1, 1),
    (7, 1, 1),
    (10, 1, 8),
];

#[test]
fn counts_of_every_byte() {
    for operation in 0..=255 {
        let said = SAID.iter().find(|(number, _, _)| *number == operation);
        let wanted = said.map_or((0, 0), |(_, fewest, most)| (*fewest, *most));
        assert_eq!(operation_counts(operation), wanted, "operation {operation}");
    }
}

/// Holds the check against the counts; tells how often each answer came.
fn answers(cases: impl Iterator<Item = Case>) -> BTreeMap<u32, usize> {
    let mut answers = BTreeMap::new();
    for case in cases {
        let found = code(check(&case.bytes()));
        assert_eq!(found, case.wanted(operation_counts(case.operation)), "{case:?}");
        *answers.entry(found).or_insert(0) += 1;
    }
    answers
}

#[test]
fn the_check_goes_by_the_counts() {
    assert_eq!(answers(small()), BTreeMap::from(SMALL_ANSWERS));
    assert_eq!(answers(large()), BTreeMap::from(LARGE_ANSWERS));
}

/// Refusal 5 is looked for before 7, so the number of children doesn't matter then.
#[test]
fn a_word_is_refused_whatever_the_counts() {
    let mut answers = BTreeMap::new();
    for case in small() {
        for word in WORDS {
            *answers.entry(code(check(&case.with_word(word)))).or_insert(0) += 1;
        }
    }
    assert_eq!(answers, BTreeMap::from(WORD_ANSWERS));
}
