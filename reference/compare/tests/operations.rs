//! The proved numbers of children by operation against the reference, and the proved check against both.

use std::collections::BTreeMap;

use compare::{table_check, table_operation_counts};
use design::difference::{code, ensure, shown, told, Outcome};
use design::operation_cases::{large, small, Case, LARGE_ANSWERS, SMALL_ANSWERS, WORDS, WORD_ANSWERS};
use design::{check, operation_counts};

#[test]
fn counts_of_every_byte() -> Outcome {
    let mut operations = 0;
    for operation in 0..=255 {
        let (fewest, most) = operation_counts(operation);
        let (found, wanted) = (table_operation_counts(operation), u32::from(fewest) * 65536 + u32::from(most));
        ensure(found == wanted, || format!("operation {operation}: found {found:#x}, wanted {wanted:#x}"))?;
        operations += usize::from(found != 0);
    }
    // Document 01 names 0 to 10.
    ensure(operations == 11, || format!("{operations} operations, not 11"))
}

/// How often each answer of the check came.
#[derive(Default)]
struct Answers(BTreeMap<u32, usize>);

impl Answers {
    /// Both checks have to come to this.
    fn note(&mut self, case: Case, bytes: &[u8], wanted: u32) -> Outcome {
        for (side, found) in [("proved", table_check(bytes)), ("reference", code(check(bytes)))] {
            ensure(found == wanted, || {
                format!("{case:?}, {side}: found {}, wanted {}: {}", told(found), told(wanted), shown(bytes))
            })?;
        }
        *self.0.entry(wanted).or_insert(0) += 1;
        Ok(())
    }

    fn are<const COUNT: usize>(&self, wanted: [(u32, usize); COUNT]) -> Outcome {
        ensure(self.0 == BTreeMap::from(wanted), || format!("answers {:?}, wanted {wanted:?}", self.0))
    }
}

/// What the library itself says the counts are.
fn proved_counts(operation: u8) -> (u16, u16) {
    let counts = table_operation_counts(operation);
    ((counts >> 16) as u16, counts as u16)
}

/// Each case is answered by the library's own counts, and the answers come this often.
fn answered_by_the_counts<const COUNT: usize>(
    cases: impl Iterator<Item = Case>,
    wanted: [(u32, usize); COUNT],
) -> Outcome {
    let mut answers = Answers::default();
    for case in cases {
        answers.note(case, &case.bytes(), case.wanted(proved_counts(case.operation)))?;
    }
    answers.are(wanted)
}

#[test]
fn the_check_goes_by_the_counts() -> Outcome {
    answered_by_the_counts(small(), SMALL_ANSWERS)
}

#[test]
fn many_children() -> Outcome {
    answered_by_the_counts(large(), LARGE_ANSWERS)
}

/// Refusal 5 is looked for before 7, so the number of children doesn't matter then.
#[test]
fn a_word_is_refused_whatever_the_counts() -> Outcome {
    let mut answers = Answers::default();
    for case in small() {
        for word in WORDS {
            answers.note(case, &case.with_word(word), 5 * 65536 + 2)?;
        }
    }
    answers.are(WORD_ANSWERS)
}
