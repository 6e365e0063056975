//! The proved list of records against the reference: what is lent is full of noise before, and all of it is compared.

mod refusals;

use std::collections::BTreeMap;

use compare::list_fill_records;
use design::asm::assemble;
use design::damage::damaged;
use design::difference::{ensure, shown, told, unrefused, Outcome};
use design::examples;
use design::generator::{accepted, accepted_of, accepted_sharing};
use design::list::{put_records, records, Record};
use design::random::Random;
use design::towers::{any_comb, any_deep, any_tower, deep_beside, tower_beside, tower_of_arguments};
use design::{Function, Node, Refusal, Tree};
use refusals::Refusals;

/// Tables that are accepted, and tables that are mostly not.
const TABLES: usize = 51_000;
const DAMAGED: usize = 24_000;

/// Records around a lent list that nobody may touch.
const GUARD: usize = 16;

/// What happened over all tables.
#[derive(Default)]
struct Seen {
    /// Tables with a list, the records of all of them, and the most of one.
    listed: usize,
    records: usize,
    most: usize,
    /// Lists to fill, by their length against the table's list.
    lengths: BTreeMap<&'static str, usize>,
    refusals: Refusals,
}

impl Seen {
    fn length(&mut self, lent: usize, needed: usize) {
        let kind = match lent {
            0 if needed == 0 => "none for none",
            0 => "none for some",
            _ if lent + 1 == needed => "one too short",
            _ if lent < needed => "shorter",
            _ if lent == needed => "fitting",
            _ if needed == 0 => "some for none",
            _ => "longer",
        };
        *self.lengths.entry(kind).or_insert(0) += 1;
    }

    fn often(&self, fewest: usize) -> Outcome {
        println!("{} tables with a list, {} records, at most {}", self.listed, self.records, self.most);
        println!("{:?}", self.lengths);
        ensure(self.lengths.len() == 7, || format!("{:?}", self.lengths))?;
        let rare = self.lengths.iter().find(|(_, count)| **count < fewest);
        ensure(rare.is_none(), || format!("rare: {rare:?} of {:?}", self.lengths))
    }
}

fn to_lent(record: Record) -> compare::Record {
    compare::Record { callee: record.callee.0, caller: record.caller.0, node: record.node.0 }
}

fn noise(random: &mut Random, length: usize) -> Vec<Record> {
    let mut number = || random.number() as u16;
    (0..length)
        .map(|_| Record { callee: Function(number()), caller: Function(number()), node: Node(number()) })
        .collect()
}

/// Lends both this many records of noise; compares what they say, and each record, those around the lent ones too.
fn fill(random: &mut Random, bytes: &[u8], length: usize, list: Result<&[Record], Refusal>) -> Outcome {
    let mut wanted = noise(random, length + 2 * GUARD);
    let mut found: Vec<compare::Record> = wanted.iter().copied().map(to_lent).collect();
    let lent = GUARD..GUARD + length;
    let filled = list.and_then(|list| put_records(list, &mut wanted[lent.clone()]));
    let (answer, code) = (list_fill_records(bytes, &mut found[lent]), filled.map_or_else(Refusal::code, |_| 0));
    let with = || format!("{length} records to fill, {} wanted: {}", told(code), shown(bytes));
    ensure(answer == code, || format!("found {}: {}", told(answer), with()))?;
    for (at, (found, wanted)) in found.into_iter().zip(wanted.into_iter().map(to_lent)).enumerate() {
        let index = || at as isize - GUARD as isize;
        ensure(found == wanted, || format!("record {}: found {found:?}, wanted {wanted:?}: {}", index(), with()))?;
    }
    Ok(())
}

/// All lengths that are tried with an accepted table: none, up to three too short, fitting, longer.
fn agree(seen: &mut Seen, random: &mut Random, bytes: &[u8]) -> Outcome {
    let tree = unrefused(Tree::read(bytes), bytes)?;
    let list = records(&tree);
    let needed = list.len();
    let shorter = [1, 2, 3, random.within(1, 512)].map(|less| needed.saturating_sub(less));
    let longer = [needed + 1, needed + random.within(2, 40), random.pick(&[511, 512, 513, 700])];
    let mut lengths = [&[0, needed][..], &shorter, &longer].concat();
    lengths.sort();
    lengths.dedup();
    for length in lengths {
        fill(random, bytes, length, Ok(&list))?;
        seen.length(length, needed);
    }
    seen.listed += usize::from(needed > 0);
    seen.records += needed;
    seen.most = seen.most.max(needed);
    Ok(())
}

/// A table that is mostly refused: its refusal comes before the length, and all records are kept.
fn agree_on_any(seen: &mut Seen, random: &mut Random, bytes: &[u8]) -> Outcome {
    let Err(refusal) = Tree::read(bytes) else {
        seen.refusals.note(0);
        return agree(seen, random, bytes);
    };
    seen.refusals.note(refusal.code());
    [0, random.within(1, 40), 512].iter().try_for_each(|length| fill(random, bytes, *length, Err(refusal)))
}

#[test]
fn random_tables() -> Outcome {
    let (mut seen, mut random) = (Seen::default(), Random::new(311));
    for round in 0..TABLES {
        let bytes = if round % 2 == 0 { accepted(&mut random) } else { accepted_sharing(&mut random) };
        agree(&mut seen, &mut random, &bytes)?;
    }
    seen.often(5_000)?;
    ensure(4 * seen.listed >= TABLES && seen.records >= 6 * TABLES, || format!("{}, {}", seen.listed, seen.records))
}

#[test]
fn refused_tables() -> Outcome {
    let (mut seen, mut random) = (Seen::default(), Random::new(312));
    for _ in 0..DAMAGED {
        let bytes = damaged(&mut random);
        agree_on_any(&mut seen, &mut random, &bytes)?;
    }
    seen.refusals.often(1000, 500)
}

/// The longest lists, and lists over many functions.
#[test]
fn towers_and_deep_chains() -> Outcome {
    let (mut seen, mut random) = (Seen::default(), Random::new(313));
    for bytes in [tower_beside(), tower_of_arguments(), deep_beside()] {
        agree(&mut seen, &mut random, &bytes)?;
    }
    for _ in 0..200 {
        for bytes in [any_tower(&mut random), any_deep(&mut random), any_comb(&mut random)] {
            agree(&mut seen, &mut random, &bytes)?;
        }
    }
    println!("{} tables with a list, {} records, at most {}", seen.listed, seen.records, seen.most);
    ensure(seen.listed >= 400 && seen.most >= 240, || format!("{} lists, at most {}", seen.listed, seen.most))
}

#[test]
fn all_sizes() -> Outcome {
    let (mut seen, mut random) = (Seen::default(), Random::new(314));
    for nodes in 1..=512 {
        let bytes = accepted_of(&mut random, nodes);
        agree(&mut seen, &mut random, &bytes)?;
    }
    Ok(())
}

/// Every length from none to some more than needed, with the records that the rules give.
#[test]
fn every_length_of_a_named_design() -> Outcome {
    let mut random = Random::new(315);
    let text = "fun f(x) = x  fun g(x) = f(x)  fun main(x) = beside(g(x), g(x))";
    let bytes = assemble(text).map_err(|error| format!("{error:?}"))?;
    let record =
        |(callee, caller, node)| Record { callee: Function(callee), caller: Function(caller), node: Node(node) };
    let list = [(1, 2, 2), (2, 3, 5), (2, 3, 7)].map(record);
    (0..600).try_for_each(|length| fill(&mut random, &bytes, length, Ok(&list)))
}

#[test]
fn examples_and_short_inputs() -> Outcome {
    let (mut seen, mut random) = (Seen::default(), Random::new(316));
    for bytes in examples::tables()? {
        agree_on_any(&mut seen, &mut random, &bytes)?;
    }
    for length in 0..8 {
        for bytes in [vec![0; length], vec![0xff; length], [1, 0, 1, 0, 0, 0, 1, 0][..length].to_vec()] {
            agree_on_any(&mut seen, &mut random, &bytes)?;
        }
    }
    Ok(())
}
