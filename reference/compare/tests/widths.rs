//! Width bytes and constants in the proved check, and the order of refusal 25 among the others.

use compare::{list_check_tags, list_fill_records, list_fill_tags, list_record, sheet_fill, table_check, Record};
use design::asm::assemble;
use design::check;
use design::check::wide_constant;
use design::damage::{damaged, too_wide};
use design::difference::{code, ensure, shown, told, Outcome};
use design::random::Random;
use design::{Node, Table};
use numbers::SHEET_BYTES;

const TABLES: usize = 30_000;

/// Offsets in a node record.
const KIND: usize = 0;
const EXTRA: usize = 1;
const WORD: usize = 2;
const NEXT: usize = 8;

fn says(bytes: &[u8], number: u32, place: u32) -> Outcome {
    let (found, own, wanted) = (table_check(bytes), code(check(bytes)), number * 65536 + place);
    ensure([found, own] == [wanted; 2], || {
        format!("found {}, reference {}, wanted {}: {}", told(found), told(own), told(wanted), shown(bytes))
    })
}

fn table(text: &str) -> Result<Vec<u8>, String> {
    assemble(text).map_err(|error| format!("{text}: {error:?}"))
}

/// The table of a text with one byte of a node changed.
fn changed(text: &str, node: usize, offset: usize, byte: u8) -> Result<Vec<u8>, String> {
    let mut bytes = table(text)?;
    let at = 4 + 4 * usize::from(bytes[0]) + 10 * (node - 1) + offset;
    bytes[at] = byte;
    Ok(bytes)
}

#[test]
fn width_bytes() -> Outcome {
    let bytes = table("fun f(x) = x  fun g() = 1  fun main(x) = beside(f(x), g())")?;
    for head in [4, 8, 12] {
        for byte in 0..=255 {
            let mut bytes = bytes.clone();
            bytes[head + 1] = byte;
            says(&bytes, if byte > 32 { 5 } else { 0 }, 0)?;
        }
    }
    Ok(())
}

/// For every width the largest constant, the limit itself, and what is above; also with a count of 9 beside it.
#[test]
fn constants_at_the_limit() -> Outcome {
    for byte in 0..=33u8 {
        let limit = match byte {
            0 | 32.. => 1u64 << 32,
            width => 1 << width,
        };
        for value in [0, 1, limit - 1, limit, limit + 1, 2 * limit, limit * 3 / 2, 1 << 16, 1 << 31, u32::MAX.into()] {
            let Ok(value) = u32::try_from(value) else {
                continue;
            };
            let mut bytes = table(&format!("fun f() = 1  fun main(x) = beside(f(), {value})"))?;
            bytes[9] = byte;
            match (byte, u64::from(value) < limit) {
                (33.., _) => says(&bytes, 5, 0)?,
                (_, true) => says(&bytes, 0, 0)?,
                (_, false) => says(&bytes, 25, 4)?,
            }
            bytes[4] = 9;
            says(&bytes, 5, 0)?;
        }
    }
    says(&table("fun main(): 4 = 15")?, 0, 0)?;
    says(&table("fun main(): 4 = 16")?, 25, 1)
}

/// The width is that of the constant's own function, and the lowest node is told.
#[test]
fn whose_width_and_which_node() -> Outcome {
    let two = |f: u8, main: u8| table(&format!("fun f(x): {f} = add(x, 9)  fun main(): {main} = f(6)"));
    says(&two(4, 3)?, 0, 0)?;
    says(&two(3, 4)?, 25, 3)?;
    says(&two(4, 2)?, 25, 5)?;
    says(&two(3, 2)?, 25, 3)?;
    // Main's root is node 1 and f's is node 2.
    let mut bytes = table("fun f(): 4 = 16  fun main(): 4 = 17")?;
    (bytes[6], bytes[10]) = (2, 1);
    says(&bytes, 25, 1)?;
    // Words that are no values may be larger.
    says(&table("fun a() = 1  fun b(): 1 = let c = 1, d = 1 in d  fun main(): 1 = b()")?, 0, 0)
}

#[test]
fn all_others_come_first() -> Outcome {
    says(&table("fun main(x): 4 = if 16 then x else beside(main(1))")?, 9, 5)?;
    says(&table("fun main(x): 4 = if 15 then x else beside(main(16))")?, 9, 5)?;
    let text = "fun main(x): 4 = add(16, x)";
    says(&changed(text, 3, EXTRA, 1)?, 8, 3)?;
    says(&changed(text, 1, EXTRA, 5)?, 7, 1)?;
    says(&changed("fun main(x): 4 = if 16 then main(x) else 1", 3, WORD, 2)?, 6, 3)?;
    says(&changed(text, 3, KIND, 9)?, 5, 3)?;
    says(&changed(text, 2, NEXT, 0)?, 4, 3)?;
    says(&table(text)?, 25, 2)
}

/// What is lent with a table that is refused 25: whatever its length, the table comes first and nothing is written.
fn lent_is_kept(random: &mut Random, bytes: &[u8], refusal: u32) -> Outcome {
    let nodes = usize::from(Table::new(bytes).node_count());
    for length in [nodes.div_ceil(8), random.below(70)] {
        let before = random.bytes(length);
        let mut tags = before.clone();
        let answers = [list_check_tags(bytes, &tags), list_fill_tags(bytes, &mut tags)];
        ensure(answers == [refusal; 2] && tags == before, || format!("tags {answers:?}: {}", shown(bytes)))?;
    }
    let record = Record { callee: 1, caller: 2, node: 3 };
    for length in [0, 600] {
        let mut records = vec![record; length];
        let answer = list_fill_records(bytes, &mut records);
        let is_kept = records.iter().all(|other| *other == record);
        ensure(answer == refusal && is_kept, || format!("{length} records, {answer}: {}", shown(bytes)))?;
    }
    let mut text = [7; SHEET_BYTES];
    let answers = [list_record(bytes, 0), sheet_fill(bytes, &mut text)];
    let is_kept = text.iter().all(|byte| *byte == 7);
    ensure(answers == [2 << 32 | u64::from(refusal); 2] && is_kept, || format!("{answers:?}: {}", shown(bytes)))
}

#[test]
fn tables_that_are_too_wide() -> Outcome {
    let mut random = Random::new(111);
    let mut wide = 0;
    for _ in 0..TABLES / 10 {
        let bytes = too_wide(&mut random);
        let wanted = code(check(&bytes));
        says(&bytes, wanted / 65536, wanted % 65536)?;
        if wanted / 65536 == 25 {
            wide += 1;
            lent_is_kept(&mut random, &bytes, wanted)?;
        }
    }
    ensure(wide > TABLES / 12, || format!("{wide} refused 25"))
}

/// Tables with several faults: 25 beside each of 6 to 9, which come first, and beside none of them.
#[test]
fn in_the_company_of_others() -> Outcome {
    let mut random = Random::new(112);
    let mut beside = [0; 26];
    for _ in 0..TABLES {
        let bytes = damaged(&mut random);
        let wanted = check(&bytes);
        says(&bytes, code(wanted) / 65536, code(wanted) % 65536)?;
        if let Err(refusal) = wanted {
            // With links and fields in order it can be told whether 25 would come later.
            let wide = matches!(refusal.number, 6..=9 | 25).then(|| wide_constant(&Table::new(&bytes))).flatten();
            beside[usize::from(refusal.number)] += usize::from(wide.is_some());
            ensure(refusal.number != 25 || wide == Some(refusal.place), || format!("{refusal:?}: {}", shown(&bytes)))?;
            ensure(refusal.number != 25 || refusal.place != Node(0), || format!("{refusal:?}: {}", shown(&bytes)))?;
        }
    }
    println!("beside 25: {beside:?}");
    ensure([6, 7, 8, 9, 25].iter().all(|number| beside[*number] >= 150), || format!("{beside:?}"))
}
