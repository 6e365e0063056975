//! The proved records one by one against the reference: in order, nothing past the last, and of a refused table its
//! refusal.

mod refusals;

use compare::list_record;
use design::damage::damaged;
use design::difference::{ensure, shown, unrefused, Outcome};
use design::generator::{accepted, accepted_sharing};
use design::list::{records, Record};
use design::random::Random;
use design::Tree;
use refusals::Refusals;

/// Tables that are accepted, and tables that are mostly not.
const TABLES: usize = 51_000;
const DAMAGED: usize = 24_000;

const RECORD: u64 = 1 << 32;
const REFUSED: u64 = 2 << 32;

fn same(bytes: &[u8], index: usize, wanted: u64) -> Outcome {
    let found = list_record(bytes, index);
    ensure(found == wanted, || format!("record {index}: found {found:#x}, wanted {wanted:#x}: {}", shown(bytes)))
}

/// Compares every record and the places past the last; tells how many records there are.
fn compare(bytes: &[u8], tree: &Tree) -> Result<usize, String> {
    let wanted = records(tree);
    for (index, Record { callee, caller, node }) in wanted.iter().enumerate() {
        let functions = (u64::from(callee.0) << 24) + (u64::from(caller.0) << 16);
        same(bytes, index, RECORD + functions + u64::from(node.0))?;
    }
    // An index that has more bits than it needs is past the last too.
    for past in [wanted.len(), wanted.len() + 1, 511, 512, 1 << 16, 1 << 32, usize::MAX] {
        if past >= wanted.len() {
            same(bytes, past, 0)?;
        }
    }
    Ok(wanted.len())
}

#[test]
fn records_in_order() -> Outcome {
    let mut random = Random::new(301);
    let (mut listed, mut all) = (0, 0);
    for round in 0..TABLES {
        let bytes = if round % 2 == 0 { accepted(&mut random) } else { accepted_sharing(&mut random) };
        let tree = unrefused(Tree::read(&bytes), &bytes)?;
        let count = compare(&bytes, &tree)?;
        listed += usize::from(count > 0);
        all += count;
    }
    println!("{listed} tables with a list, {all} records");
    ensure(listed > TABLES / 4 && all > 6 * TABLES, || {
        format!("{listed} tables with a list, {all} records: too few to tell")
    })
}

/// Whichever record is asked for, a refused table is told by number and place.
#[test]
fn no_record_of_a_refused_table() -> Outcome {
    let (mut random, mut refusals) = (Random::new(302), Refusals::default());
    for _ in 0..DAMAGED {
        let bytes = damaged(&mut random);
        match Tree::read(&bytes) {
            Ok(tree) => {
                refusals.note(0);
                compare(&bytes, &tree)?;
            }
            Err(refusal) => {
                refusals.note(refusal.code());
                for index in [0, 1, random.below(512), 512, 1 << 32, usize::MAX] {
                    same(&bytes, index, REFUSED + u64::from(refusal.code()))?;
                }
            }
        }
    }
    refusals.often(1000, 500)
}
