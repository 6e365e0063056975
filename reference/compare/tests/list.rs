//! The proved arbiter list against the reference: random tables, towers, deep chains, damage and tags handed in.

use std::collections::BTreeMap;

use compare::{list_check_tags, list_fill_tags, list_total};
use design::asm::assemble;
use design::damage::damaged;
use design::difference::{code, ensure, shown, told, unrefused, Outcome};
use design::examples;
use design::features::features;
use design::generator::{accepted, accepted_of, accepted_sharing};
use design::list::{check_tags, records, tag_bytes, tag_length, total};
use design::random::Random;
use design::reach_cases::CASES;
use design::states::{damaged_tags, tags};
use design::towers::{any_comb, any_deep, any_tower, deep_beside, deep_calls, tower_beside, tower_of_arguments};
use design::{Kind, Node, Table, Tree};
use numbers::MOST_NODES;

/// Tables per seed and seeds: 52000 accepted tables in all, and beside them damaged ones.
const TABLES: usize = 13000;
const SEEDS: [u64; 4] = [201, 202, 203, 204];

/// One table in so many is looked at for what occurs in it, which takes time.
const LOOKED_AT: usize = 8;

/// What has to occur more often than all the rest, at least in one table of so many.
const FREQUENT: [(&str, usize); 9] = [
    ("list", 5),
    ("let in a let", 5),
    ("call in an argument of a self call", 5),
    ("function nobody calls", 5),
    ("function out of reach", 4),
    ("list over all bodies differs", 10),
    ("out of reach shares a callee with a reached body", 10),
    ("called only from out of reach", 10),
    ("reached through two levels", 5),
];

/// Bytes around a lent list that nobody may touch.
const GUARD: usize = 16;

/// What happened over all tables.
#[derive(Default)]
struct Seen {
    tables: usize,
    listed: usize,
    refused: usize,
    features: BTreeMap<String, usize>,
    /// Answers to tags handed in.
    tags: BTreeMap<&'static str, usize>,
}

impl Seen {
    fn add(&mut self, other: Seen) {
        self.tables += other.tables;
        self.listed += other.listed;
        self.refused += other.refused;
        for (feature, count) in other.features {
            *self.features.entry(feature).or_insert(0) += count;
        }
        for (answer, count) in other.tags {
            *self.tags.entry(answer).or_insert(0) += count;
        }
    }
}

fn same(what: &str, found: u32, wanted: u32, bytes: &[u8], tags: &[u8]) -> Outcome {
    ensure(found == wanted, || {
        format!("{what}: found {}, wanted {}: table {}, tags {}", told(found), told(wanted), shown(bytes), shown(tags))
    })
}

/// Lends a list of noise within a larger buffer; returns the answer and the list.
fn fill(random: &mut Random, bytes: &[u8], length: usize) -> Result<(u32, Vec<u8>, Vec<u8>), String> {
    let before = random.bytes(length + 2 * GUARD);
    let mut after = before.clone();
    let lent = GUARD..GUARD + length;
    let answer = list_fill_tags(bytes, &mut after[lent.clone()]);
    let around_kept = after[..GUARD] == before[..GUARD] && after[lent.end..] == before[lent.end..];
    ensure(around_kept, || format!("bytes around a list of {length} changed: {}", shown(bytes)))?;
    Ok((answer, before[lent.clone()].to_vec(), after[lent].to_vec()))
}

/// A list of this length has to be refused so and kept.
fn fill_refused(random: &mut Random, bytes: &[u8], length: usize, wanted: u32) -> Outcome {
    let (answer, before, after) = fill(random, bytes, length)?;
    same(&format!("a list of {length} to fill"), answer, wanted, bytes, &before)?;
    ensure(after == before, || format!("a refused list of {length} changed: {}", shown(bytes)))
}

/// Fills the list of an accepted table and returns it.
fn filled(random: &mut Random, bytes: &[u8], tree: &Tree) -> Result<Vec<u8>, String> {
    let records = records(tree);
    let wanted = tag_bytes(tree, &records.iter().map(|record| record.node).collect());
    let (answer, _, found) = fill(random, bytes, wanted.len())?;
    same("a list to fill", answer, 0, bytes, &[])?;
    let lists = || format!("list {}, wanted {}: {}", shown(&found), shown(&wanted), shown(bytes));
    ensure(found == wanted, lists)?;
    let count = list_total(&found);
    ensure(count == records.len() as u64, || format!("total {count} for {} records: {}", records.len(), shown(bytes)))?;
    let other = random.pick(&[0, wanted.len() - 1, wanted.len() + 1, 2 * wanted.len(), 64, 65]);
    if other != wanted.len() {
        fill_refused(random, bytes, other, 10 << 16)?;
    }
    Ok(found)
}

/// Hands in tags and notes what they were told.
fn agree_on_tags(seen: &mut Seen, bytes: &[u8], tree: &Tree, tags: &[u8]) -> Result<u32, String> {
    let wanted = code(check_tags(tree, tags));
    same("tags handed in", list_check_tags(bytes, tags), wanted, bytes, tags)?;
    let node = Node(wanted as u16);
    let told = match (wanted, node) {
        (0, _) => "in order",
        (_, Node(0)) if tags.len() != tag_length(tree) => "another length",
        (_, Node(0)) => "past N",
        _ if matches!(tree.kind(node), Kind::Call(_)) => "at a self call",
        _ => "at another node",
    };
    *seen.tags.entry(told).or_insert(0) += 1;
    Ok(wanted)
}

/// All that is asked about one accepted table.
fn agree(seen: &mut Seen, random: &mut Random, bytes: &[u8]) -> Outcome {
    let tree = unrefused(Tree::read(bytes), bytes)?;
    let own = filled(random, bytes, &tree)?;
    let answer = agree_on_tags(seen, bytes, &tree, &own)?;
    same("its own list", answer, 0, bytes, &own)?;
    let in_order = tags(random, &tree);
    agree_on_tags(seen, bytes, &tree, &in_order)?;
    let out_of_order = damaged_tags(random, &tree);
    agree_on_tags(seen, bytes, &tree, &out_of_order)?;
    let any = random.bytes(own.len());
    agree_on_tags(seen, bytes, &tree, &any)?;
    let length = random.pick(&[0, 1, 2 * own.len(), 64, 65, 200]);
    agree_on_tags(seen, bytes, &tree, &vec![0; length])?;
    // One more node than the own list, for a tag at a self call or at no call.
    let mut one_more = own.clone();
    let calls: Vec<Node> = tree.nodes().filter(|node| matches!(tree.kind(*node), Kind::Call(_))).collect();
    let all: Vec<Node> = tree.nodes().collect();
    let node = random.pick(if calls.is_empty() { &all } else { &calls });
    one_more[usize::from(node.0 - 1) / 8] |= 1 << ((node.0 - 1) % 8);
    agree_on_tags(seen, bytes, &tree, &one_more)?;
    seen.listed += usize::from(own.iter().any(|byte| *byte != 0));
    if seen.tables.is_multiple_of(LOOKED_AT) {
        for feature in features(&tree) {
            *seen.features.entry(feature).or_insert(0) += 1;
        }
    }
    seen.tables += 1;
    Ok(())
}

/// A table that is mostly refused: the table's refusal comes first, and the list is kept.
fn agree_on_any(seen: &mut Seen, random: &mut Random, bytes: &[u8]) -> Outcome {
    match Tree::read(bytes) {
        Ok(_) => agree(seen, random, bytes),
        Err(refusal) => {
            seen.refused += 1;
            let nodes = usize::from(Table::new(bytes).node_count()).min(MOST_NODES);
            for length in [nodes.div_ceil(8), random.below(70)] {
                fill_refused(random, bytes, length, refusal.code())?;
                let any = random.bytes(length);
                same("tags with a bad table", list_check_tags(bytes, &any), refusal.code(), bytes, &any)?;
            }
            Ok(())
        }
    }
}

/// All tables of one seed.
fn random_tables_of(seed: u64) -> Result<Seen, String> {
    let (mut seen, mut random) = (Seen::default(), Random::new(seed));
    for round in 0..TABLES {
        let bytes = if round % 2 == 0 { accepted(&mut random) } else { accepted_sharing(&mut random) };
        agree(&mut seen, &mut random, &bytes)?;
        if round % 4 == 0 {
            let bytes = damaged(&mut random);
            agree_on_any(&mut seen, &mut random, &bytes)?;
        }
    }
    Ok(seen)
}

#[test]
fn random_tables() -> Outcome {
    let mut seen = Seen::default();
    for thread in SEEDS.map(|seed| std::thread::spawn(move || random_tables_of(seed))) {
        seen.add(thread.join().map_err(|_| "a thread panicked".to_string())??);
    }
    println!("{} lists of {}, {} refused", seen.listed, seen.tables, seen.refused);
    println!("{:?}\n{:#?}", seen.tags, seen.features);
    ensure(seen.tables >= 50_000 && seen.refused >= 8_000, || format!("{} and {}", seen.tables, seen.refused))?;
    ensure(3 * seen.listed >= seen.tables, || format!("{} lists of {}", seen.listed, seen.tables))?;
    ensure(seen.features.len() == 45, || format!("{:?}", seen.features))?;
    for (feature, count) in &seen.features {
        ensure(40 * LOOKED_AT * count >= seen.tables, || format!("rare: {feature}, {count}"))?;
    }
    for (feature, one_in) in FREQUENT {
        let count = seen.features[feature];
        ensure(one_in * LOOKED_AT * count >= seen.tables, || format!("not frequent: {feature}, {count}"))?;
    }
    ensure(seen.tags.len() == 5, || format!("{:?}", seen.tags))?;
    for (answer, count) in &seen.tags {
        ensure(*count >= 5_000, || format!("rare: {answer}, {count}"))?;
    }
    Ok(())
}

#[test]
fn all_sizes() -> Outcome {
    let (mut seen, mut random) = (Seen::default(), Random::new(211));
    for nodes in 1..=512 {
        for _ in 0..2 {
            let bytes = accepted_of(&mut random, nodes);
            agree(&mut seen, &mut random, &bytes)?;
        }
    }
    Ok(())
}

#[test]
fn towers() -> Outcome {
    let (mut seen, mut random) = (Seen::default(), Random::new(212));
    agree(&mut seen, &mut random, &tower_beside())?;
    agree(&mut seen, &mut random, &tower_of_arguments())?;
    for _ in 0..600 {
        let bytes = any_tower(&mut random);
        agree(&mut seen, &mut random, &bytes)?;
    }
    ensure(2 * seen.listed >= seen.tables, || format!("{} lists of {}", seen.listed, seen.tables))
}

#[test]
fn deep_chains() -> Outcome {
    let (mut seen, mut random) = (Seen::default(), Random::new(213));
    agree(&mut seen, &mut random, &deep_calls())?;
    agree(&mut seen, &mut random, &deep_beside())?;
    for _ in 0..200 {
        let bytes = any_deep(&mut random);
        agree(&mut seen, &mut random, &bytes)?;
        let bytes = any_comb(&mut random);
        agree(&mut seen, &mut random, &bytes)?;
    }
    ensure(2 * seen.listed >= seen.tables, || format!("{} lists of {}", seen.listed, seen.tables))
}

/// Every byte of small tables set to every value: the lists of near tables, and the refusals on the way.
#[test]
fn every_byte_of_small_tables() -> Outcome {
    let (mut seen, mut random) = (Seen::default(), Random::new(214));
    for text in [
        "fun f() = 3  fun g() = f()  fun main() = let a = g(), b = f() in beside(a, f(), g())",
        "fun f(x) = if x then f(halve(x)) else 1  fun main(x, y) = main(f(x), f(y))",
    ] {
        let bytes = assemble(text).map_err(|error| format!("{error:?}"))?;
        for at in 0..bytes.len() {
            for value in 0..=255 {
                let mut changed = bytes.clone();
                changed[at] = value;
                agree_on_any(&mut seen, &mut random, &changed)?;
            }
        }
    }
    ensure(seen.listed >= 200 && seen.refused >= 200, || format!("{} lists, {} refused", seen.listed, seen.refused))
}

/// All tag lists of two bytes for a table of eleven nodes.
#[test]
fn every_tag_list_of_a_small_table() -> Outcome {
    let mut seen = Seen::default();
    // Nodes 1; 2; 3 if, 4 call, 5 self call, 6 and 7 calls, 8 beside, 9 and 10 calls, 11.
    let text = "fun f() = 1  fun g() = f()  fun main(x, y) = if f() then main(f(), g()) else beside(g(), f(), x)";
    let bytes = assemble(text).map_err(|error| format!("{error:?}"))?;
    let tree = unrefused(Tree::read(&bytes), &bytes)?;
    ensure(tree.node_count() == 11, || format!("{} nodes", tree.node_count()))?;
    for number in 0..=u16::MAX {
        agree_on_tags(&mut seen, &bytes, &tree, &number.to_le_bytes())?;
        let count = list_total(&number.to_le_bytes());
        ensure(count == u64::from(number.count_ones()), || format!("{number:016b}: {count} set"))?;
    }
    // The calls are 2, 4, 6, 7, 9 and 10.
    ensure(seen.tags["in order"] == 64, || format!("{:?}", seen.tags))
}

#[test]
fn totals() -> Outcome {
    let mut random = Random::new(215);
    for length in (0..=200).chain([1000, 5252, 65536]) {
        for _ in 0..10 {
            let mut bytes = random.bytes(length);
            if random.once_in(4) {
                bytes.fill(random.pick(&[0, 1, 0x80, 0xff]));
            }
            let (found, wanted) = (list_total(&bytes), u64::from(total(&bytes)));
            ensure(found == wanted, || format!("total {found}, wanted {wanted}: {}", shown(&bytes)))?;
        }
    }
    Ok(())
}

/// The designs of the rules with the lists they give, and the example files.
#[test]
fn named_designs() -> Outcome {
    let (mut seen, mut random) = (Seen::default(), Random::new(216));
    for (text, wanted) in [
        ("fun f(x) = x  fun main(x) = f(f(x))", &[0][..]),
        ("fun f(x) = x  fun main(x) = beside(f(x), f(x))", &[0b0001_0100]),
        ("fun f(x) = x  fun g(x) = f(x)  fun main(x) = beside(g(x), g(x))", &[0b0101_0010]),
        ("fun f() = 1  fun main() = let a = f() in f()", &[0]),
        ("fun f() = 1  fun main() = let a = f(), b = f() in f()", &[0b1100]),
        ("fun f() = 1  fun main() = if f() then f() else f()", &[0]),
        ("fun f() = 1  fun main(x, y) = main(f(), f())", &[0b1100]),
        ("fun f() = 1  fun g() = add(f(), f())  fun main() = 1", &[0]),
    ] {
        let bytes = assemble(text).map_err(|error| format!("{error:?}"))?;
        agree(&mut seen, &mut random, &bytes)?;
        let (_, _, found) = fill(&mut random, &bytes, wanted.len())?;
        ensure(found == wanted, || format!("{text}: {found:?}"))?;
    }
    for case in CASES {
        let bytes = case.bytes();
        agree(&mut seen, &mut random, &bytes)?;
        let tree = unrefused(Tree::read(&bytes), &bytes)?;
        let wanted = tag_bytes(&tree, &case.list.iter().copied().map(Node).collect());
        let (_, _, found) = fill(&mut random, &bytes, wanted.len())?;
        ensure(found == wanted, || format!("{}: {found:?}", case.text))?;
    }
    for bytes in examples::tables()? {
        agree_on_any(&mut seen, &mut random, &bytes)?;
    }
    Ok(())
}

#[test]
fn empty_and_short_inputs() -> Outcome {
    let (mut seen, mut random) = (Seen::default(), Random::new(217));
    for length in 0..8 {
        for bytes in [vec![0; length], vec![0xff; length], [1, 0, 1, 0, 0, 0, 1, 0][..length].to_vec()] {
            agree_on_any(&mut seen, &mut random, &bytes)?;
        }
    }
    ensure(seen.refused == 24, || format!("{} refused", seen.refused))
}
