//! Bodies that main doesn't reach are still checked: faults in them alone are refused, by the proved check and by all
//! that checks a table first.

use std::collections::BTreeMap;

use compare::{list_check_tags, list_fill_records, list_fill_tags, list_missing, list_record};
use compare::{sheet_fill, table_check, Record};
use design::asm::assemble;
use design::check;
use design::damage::damaged_spare;
use design::difference::{code, ensure, shown, told, Outcome};
use design::random::Random;
use design::{Node, Table};
use numbers::{MOST_NODES, SHEET_BYTES};

const TABLES: usize = 24_000;

/// Every so many a table is handed to the other entries too.
const ALSO_LISTED: usize = 8;

fn agree(bytes: &[u8]) -> Result<u32, String> {
    let (found, wanted) = (table_check(bytes), code(check(bytes)));
    ensure(found == wanted, || format!("found {}, wanted {}: {}", told(found), told(wanted), shown(bytes)))?;
    Ok(wanted)
}

/// The list in all its forms and the sheet refuse as the check does.
fn all_refuse(bytes: &[u8], refusal: u32) -> Outcome {
    let mut tags = vec![0; usize::from(Table::new(bytes).node_count()).div_ceil(8)];
    let mut records = [Record { callee: 0, caller: 0, node: 0 }; MOST_NODES];
    let found =
        [list_check_tags(bytes, &tags), list_fill_tags(bytes, &mut tags), list_fill_records(bytes, &mut records)];
    let told_apart = [list_record(bytes, 0), list_missing(bytes, &tags), sheet_fill(bytes, &mut [0; SHEET_BYTES])];
    let as_wanted = found == [refusal; 3] && told_apart == [2 << 32 | u64::from(refusal); 3];
    ensure(as_wanted, || format!("{found:x?}, {told_apart:x?}, wanted {}: {}", told(refusal), shown(bytes)))
}

/// Each refusal that can name a node names one that main doesn't reach often enough, and 4 and 5 come for spare records.
#[test]
fn faults_out_of_reach() -> Outcome {
    let mut random = Random::new(121);
    let mut seen: BTreeMap<(u32, bool), usize> = BTreeMap::new();
    for round in 0..TABLES {
        let (bytes, spare) = damaged_spare(&mut random);
        let answer = agree(&bytes)?;
        let (number, place) = (answer / 65536, Node(answer as u16));
        // A link may lead into a body that main reaches, and then be refused there.
        if answer == 0 || place == Node(0) || spare.contains(&place) {
            *seen.entry((number, place != Node(0))).or_insert(0) += 1;
        }
        if answer != 0 && round.is_multiple_of(ALSO_LISTED) {
            all_refuse(&bytes, answer)?;
        }
    }
    println!("out of reach: {seen:?}");
    let at_nodes = (4..=9).chain([25]).map(|number| (number, true));
    for cause in at_nodes.chain([(0, false), (4, false), (5, false)]) {
        let count = seen.get(&cause).copied().unwrap_or(0);
        ensure(count >= 400, || format!("{cause:?} in {count} cases: {seen:?}"))?;
    }
    Ok(())
}

/// The same by hand: g, which nobody calls, has the fault.
#[test]
fn named_faults() -> Outcome {
    // Nodes 1; 2 beside, 3 and 5 calls of f with 4 and 6; 7.
    let bytes =
        assemble("fun f(x) = x  fun g(): 4 = beside(f(1), f(15))  fun main() = 1").map_err(|e| format!("{e:?}"))?;
    let says = |bytes: &[u8], number: u32, place: u32| {
        let (found, wanted) = (agree(bytes)?, number * 65536 + place);
        ensure(found == wanted, || format!("{}, wanted {}", told(found), told(wanted)))?;
        if number == 0 {
            return Ok(());
        }
        all_refuse(bytes, wanted)
    };
    says(&bytes, 0, 0)?;
    // Three function records take 12 bytes, so node n begins at 16 + 10 (n - 1).
    let node = |node: usize, field: usize| 16 + 10 * (node - 1) + field;
    for (at, byte, number, place) in [
        (10, 9, 4, 0),           // g's root
        (8, 9, 5, 0),            // its parameter count
        (9, 33, 5, 0),           // its width
        (node(3, 8), 4, 4, 4),   // a next that leads to a child
        (node(2, 1), 11, 5, 2),  // an operation that is none
        (node(5, 2), 3, 6, 5),   // main as a callee
        (node(5, 2), 0, 6, 5),   // no callee
        (node(2, 1), 5, 7, 2),   // double of two
        (node(4, 0), 7, 8, 4),   // a bound of node 1
        (node(6, 2), 16, 25, 6), // a constant of five bits
    ] {
        let mut changed = bytes.clone();
        changed[at] = byte;
        says(&changed, number, place)?;
    }
    // A parameter of a function without any, and a self call among the arms.
    let mut changed = bytes.clone();
    (changed[node(4, 0)], changed[node(4, 2)]) = (2, 0);
    says(&changed, 8, 4)?;
    let own = assemble("fun f(x) = x  fun g(x) = beside(f(1), g(2))  fun main() = 1").map_err(|e| format!("{e:?}"))?;
    says(&own, 9, 5)
}
