//! The proved search for a listed call without a tag against the reference. Table and tags are lent between guards, and
//! all of it has to stay as it was.

mod refusals;

use std::hint::black_box;

use compare::{list_check_tags, list_fill_tags, list_missing};
use design::asm::assemble;
use design::crowds::{callers, chain};
use design::damage::damaged;
use design::difference::{ensure, shown, unrefused, Outcome};
use design::examples;
use design::generator::{accepted, accepted_of, accepted_sharing};
use design::kinds::Kinds;
use design::list::{arbiter_list, check_tags, tag_bytes, tag_length, tagged, Calls};
use design::random::Random;
use design::reach_cases::CASES;
use design::start_cases::cases;
use design::starts::nodes_of;
use design::states::{damaged_tags, every_call, holding_tags, missing_tags, tags};
use design::tag_kinds::{tag_kinds, HELD, MISSED};
use design::towers::{any_comb, any_deep, any_tower, deep_beside, deep_calls, tower_beside, tower_of_arguments};
use design::{Kind, Node, Refusal, Tree};
use refusals::Refusals;

/// Tables that are accepted, and tables that are mostly not.
const TABLES: usize = 16_000;
const DAMAGED: usize = 24_000;

/// One table in so many is looked at for how its tags stand to the list, which takes time.
const LOOKED_AT: usize = 4;

/// Bytes around what is lent.
const GUARD: usize = 16;

/// What is said before the value, the node or the refusal.
const MISSING: u64 = 1 << 32;
const REFUSED: u64 = 2 << 32;

/// What occurs to tags, whatever the table.
const ANSWERS: [&str; 6] =
    ["none is missing", "one is missing", "another length", "a tag past N", "a tag at a self call", "a tag at no call"];

/// What was asked.
#[derive(Default)]
struct Seen {
    answers: Kinds,
    /// How tags in order stood to the list.
    tags: Kinds,
    refusals: Refusals,
    tables: usize,
}

/// Lends bytes of noise around these.
fn between_guards(random: &mut Random, bytes: &[u8]) -> Vec<u8> {
    let mut all = random.bytes(bytes.len() + 2 * GUARD);
    all[GUARD..GUARD + bytes.len()].copy_from_slice(bytes);
    all
}

/// What the library says, which is to write nothing.
fn asked(random: &mut Random, bytes: &[u8], tags: &[u8]) -> Result<u64, String> {
    let lent = [bytes, tags].map(|part| between_guards(random, part));
    let before = lent.clone();
    let [table, tagged] = lent.each_ref().map(|all| &all[GUARD..all.len() - GUARD]);
    let answer = list_missing(table, tagged);
    // Read anew, whatever is known of bytes that are lent to be read.
    let after = black_box(lent);
    ensure(after == before, || format!("something lent changed: table {}, tags {}", shown(bytes), shown(tags)))?;
    // It refuses as the check of tags does.
    let checked = u64::from(list_check_tags(bytes, tags));
    let is_same = (answer >= REFUSED) == (checked != 0) && (checked == 0 || answer == REFUSED + checked);
    ensure(is_same, || format!("{answer:#x}, tags {checked:#x}: table {}, tags {}", shown(bytes), shown(tags)))?;
    Ok(answer)
}

fn same(random: &mut Random, bytes: &[u8], tags: &[u8], wanted: u64) -> Outcome {
    let found = asked(random, bytes, tags)?;
    ensure(found == wanted, || {
        format!("found {found:#x}, wanted {wanted:#x}: table {}, tags {}", shown(bytes), shown(tags))
    })
}

/// An accepted table with its list.
struct Listed<'a> {
    bytes: &'a [u8],
    tree: Tree,
    list: Calls,
}

impl<'a> Listed<'a> {
    fn of(bytes: &'a [u8]) -> Result<Listed<'a>, String> {
        let tree = unrefused(Tree::read(bytes), bytes)?;
        let list = arbiter_list(&tree);
        Ok(Listed { bytes, tree, list })
    }

    fn wanted(&self, tags: &[u8]) -> u64 {
        if let Err(refusal) = check_tags(&self.tree, tags) {
            return REFUSED + u64::from(refusal.code());
        }
        (&self.list - &tagged(&self.tree, tags)).first().map_or(0, |node| MISSING + u64::from(node.0))
    }

    /// Both have to say the same of these tags.
    fn agree(&self, seen: &mut Seen, random: &mut Random, tags: &[u8]) -> Outcome {
        let wanted = self.wanted(tags);
        same(random, self.bytes, tags, wanted)?;
        seen.answers.note(vec![match (wanted, Node(wanted as u16)) {
            (0, _) => "none is missing",
            (1..REFUSED, _) => "one is missing",
            (_, Node(0)) if tags.len() != tag_length(&self.tree) => "another length",
            (_, Node(0)) => "a tag past N",
            (_, node) if matches!(self.tree.kind(node), Kind::Call(_)) => "a tag at a self call",
            _ => "a tag at no call",
        }]);
        if wanted < REFUSED && seen.tables.is_multiple_of(LOOKED_AT) {
            seen.tags.note(tag_kinds(&self.tree, tags));
        }
        Ok(())
    }

    /// Tags that hold the list, miss some of it, are none, all or any, and tags that are out of order.
    fn agree_on_all(&self, seen: &mut Seen, random: &mut Random) -> Outcome {
        let mut own = vec![0xff; tag_length(&self.tree)];
        let filled = list_fill_tags(self.bytes, &mut own);
        ensure(filled == 0, || format!("{filled:#x}: {}", shown(self.bytes)))?;
        // The list itself has all that it asks for.
        same(random, self.bytes, &own, 0)?;
        let mut lists = vec![own.clone(), vec![0; own.len()], tag_bytes(&self.tree, &every_call(&self.tree))];
        lists.extend([holding_tags, tags, damaged_tags].map(|make| make(random, &self.tree)));
        lists.extend((0..2).filter_map(|_| missing_tags(random, &self.tree)));
        lists.push(random.bytes(own.len()));
        let length = random.pick(&[0, own.len() - 1, own.len() + 1, 2 * own.len(), 64, 65, 200]);
        lists.push(vec![0; length]);
        // A call more, which may be a self call.
        let calls: Vec<Node> =
            self.tree.nodes().filter(|node| matches!(self.tree.kind(*node), Kind::Call(_))).collect();
        if !calls.is_empty() {
            let node = random.pick(&calls).0 - 1;
            own[usize::from(node) / 8] |= 1 << (node % 8);
            lists.push(own);
        }
        lists.iter().try_for_each(|tags| self.agree(seen, random, tags))?;
        seen.tables += 1;
        Ok(())
    }

    /// Each call of the list is found if it alone has no tag, and the lower of it and another if both have none.
    fn each_left_out(&self, random: &mut Random) -> Result<usize, String> {
        let list: Vec<Node> = self.list.iter().copied().collect();
        for call in &list {
            let mut marked = if random.once_in(2) { every_call(&self.tree) } else { self.list.clone() };
            marked.remove(call);
            same(random, self.bytes, &tag_bytes(&self.tree, &marked), MISSING + u64::from(call.0))?;
            let other = random.pick(&list);
            marked.remove(&other);
            same(random, self.bytes, &tag_bytes(&self.tree, &marked), MISSING + u64::from(call.min(&other).0))?;
        }
        Ok(list.len())
    }
}

/// A table that is mostly refused: its refusal comes first, whatever the tags.
fn agree_on_any(seen: &mut Seen, random: &mut Random, bytes: &[u8]) -> Outcome {
    let Err(refusal) = Tree::read(bytes) else {
        seen.refusals.note(0);
        return Listed::of(bytes)?.agree_on_all(seen, random);
    };
    seen.refusals.note(refusal.code());
    let fitting = nodes_of(bytes).div_ceil(8);
    let length = random.below(70);
    for tags in [vec![0; fitting], random.bytes(fitting), random.bytes(length), Vec::new()] {
        same(random, bytes, &tags, REFUSED + u64::from(refusal.code()))?;
    }
    Ok(())
}

#[test]
fn random_tables() -> Outcome {
    let (mut seen, mut random) = (Seen::default(), Random::new(221));
    for round in 0..TABLES {
        let bytes = if round % 2 == 0 { accepted(&mut random) } else { accepted_sharing(&mut random) };
        Listed::of(&bytes)?.agree_on_all(&mut seen, &mut random)?;
    }
    seen.answers.often(&ANSWERS, 2_000)?;
    seen.answers.at_least(&[("none is missing", 70_000), ("one is missing", 22_000)])?;
    seen.tags.often(&[&HELD[..], &MISSED].concat(), 100)
}

#[test]
fn refused_tables() -> Outcome {
    let (mut seen, mut random) = (Seen::default(), Random::new(222));
    for _ in 0..DAMAGED {
        let bytes = damaged(&mut random);
        agree_on_any(&mut seen, &mut random, &bytes)?;
    }
    seen.refusals.often(1000, 500)
}

#[test]
fn all_sizes() -> Outcome {
    let (mut seen, mut random) = (Seen::default(), Random::new(223));
    for nodes in 1..=512 {
        let bytes = accepted_of(&mut random, nodes);
        Listed::of(&bytes)?.agree_on_all(&mut seen, &mut random)?;
    }
    Ok(())
}

/// The longest lists, in every byte and word: each call left out.
#[test]
fn each_call_of_long_lists() -> Outcome {
    let (mut seen, mut random) = (Seen::default(), Random::new(224));
    let mut tables = vec![tower_beside(), tower_of_arguments(), deep_calls(), deep_beside(), callers(), chain()];
    for _ in 0..60 {
        tables.extend([any_tower, any_deep, any_comb].map(|make| make(&mut random)));
        tables.push(accepted_sharing(&mut random));
    }
    let mut left_out = 0;
    for bytes in &tables {
        let listed = Listed::of(bytes)?;
        listed.agree_on_all(&mut seen, &mut random)?;
        left_out += listed.each_left_out(&mut random)?;
    }
    println!("{left_out} calls left out");
    ensure(left_out >= 12_000, || format!("{left_out} calls left out"))
}

/// All tag lists of two bytes for a table of eleven nodes.
#[test]
fn every_tag_list_of_a_small_table() -> Outcome {
    let (mut seen, mut random) = (Seen { tables: 1, ..Seen::default() }, Random::new(225));
    // Nodes 1; 2; 3 if, 4 call, 5 self call, 6 and 7 calls, 8 beside, 9 and 10 calls, 11.
    let text = "fun f() = 1  fun g() = f()  fun main(x, y) = if f() then main(f(), g()) else beside(g(), f(), x)";
    let bytes = assemble(text).map_err(|error| format!("{error:?}"))?;
    let listed = Listed::of(&bytes)?;
    let list: Vec<u16> = listed.list.iter().map(|node| node.0).collect();
    ensure(list == [2, 6, 10], || format!("{list:?}"))?;
    for number in 0..=u16::MAX {
        listed.agree(&mut seen, &mut random, &number.to_le_bytes())?;
    }
    // Of the calls 2, 4, 6, 7, 9 and 10 three are listed, so one in eight of the 64 lists in order holds them.
    seen.answers.often(&ANSWERS[..2], 8)?;
    seen.answers.at_least(&[("none is missing", 8), ("one is missing", 56)])
}

/// Every byte of small tables set to every value: near tables with their lists, and the refusals on the way.
#[test]
fn every_byte_of_small_tables() -> Outcome {
    let (mut seen, mut random) = (Seen { tables: 1, ..Seen::default() }, Random::new(226));
    for text in [
        "fun f() = 3  fun g() = f()  fun main() = let a = g(), b = f() in beside(a, f(), g())",
        "fun f(x) = if x then f(halve(x)) else 1  fun main(x, y) = main(f(x), f(y))",
        "fun f(x): 4 = x  fun s(x) = add(f(x), f(x))  fun main(): 4 = beside(f(15), f(1))",
    ] {
        let bytes = assemble(text).map_err(|error| format!("{error:?}"))?;
        for at in 0..bytes.len() {
            for value in 0..=255 {
                let mut changed = bytes.clone();
                changed[at] = value;
                agree_on_any(&mut seen, &mut random, &changed)?;
            }
        }
    }
    seen.answers.often(&ANSWERS[..2], 1_000)
}

/// The starts that were worked out: what is refused 26 there is told here, also where the arguments come before.
#[test]
fn named_designs() -> Outcome {
    let (mut seen, mut random) = (Seen::default(), Random::new(227));
    let mut missing = 0;
    for case in cases() {
        let wanted = match case.answer {
            Ok(()) => 0,
            Err(Refusal { number: 26, place }) => MISSING + u64::from(place.0),
            Err(Refusal { number: 11, .. }) => Listed::of(&case.bytes)?.wanted(&case.tags),
            Err(refusal) => REFUSED + u64::from(refusal.code()),
        };
        same(&mut random, &case.bytes, &case.tags, wanted).map_err(|message| format!("{}: {message}", case.name))?;
        missing += usize::from((1..REFUSED).contains(&wanted));
    }
    ensure(missing >= 80, || format!("{missing} starts without a tag that they need"))?;
    for case in CASES {
        let bytes = case.bytes();
        let listed = Listed::of(&bytes)?;
        listed.agree_on_all(&mut seen, &mut random)?;
        listed.each_left_out(&mut random)?;
        let first = case.list.first().map_or(0, |node| MISSING + u64::from(*node));
        same(&mut random, &bytes, &vec![0; tag_length(&listed.tree)], first)?;
    }
    for bytes in examples::tables()? {
        agree_on_any(&mut seen, &mut random, &bytes)?;
    }
    Ok(())
}

#[test]
fn empty_and_short_inputs() -> Outcome {
    let (mut seen, mut random) = (Seen::default(), Random::new(228));
    for length in 0..8 {
        for bytes in [vec![0; length], vec![0xff; length], [1, 0, 1, 0, 0, 0, 1, 0][..length].to_vec()] {
            agree_on_any(&mut seen, &mut random, &bytes)?;
        }
    }
    Ok(())
}
