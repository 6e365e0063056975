//! The proved sheet against the reference: the lent text is noise between guards, and all of it is compared.

mod pages;
mod refusals;

use compare::sheet_fill;
use design::asm::assemble;
use design::difference::{ensure, shown, unrefused, Outcome};
use design::examples;
use design::list::{differs_over_all, records};
use design::listings::{longest, SheetTables};
use design::random::Random;
use design::sheet::sheet;
use design::sheet_kinds::SheetKinds;
use design::towers::{deep_beside, tower_beside};
use design::Tree;
use numbers::{PAGE_BYTES, SHEET_BYTES};
use refusals::Refusals;

const TABLES: usize = 15_000;

/// Bytes around the lent text that nobody may touch.
const GUARD: usize = 64;

const FILLED: u64 = 1 << 32;
const REFUSED: u64 = 2 << 32;

#[derive(Default)]
struct Seen {
    kinds: SheetKinds,
    refusals: Refusals,
    /// Tables with a list and with a call off it that is no self call.
    off_the_list: usize,
    /// Tables of which the list over all bodies is another.
    spare: usize,
}

/// Lends a text with this content and guards; compares the answer and each byte.
fn fill(seen: &mut Seen, bytes: &[u8], before: Vec<u8>) -> Outcome {
    let (mut found, mut wanted) = (before.clone(), before);
    let lent = GUARD..GUARD + SHEET_BYTES;
    let tree = Tree::read(bytes);
    let list = tree.as_ref().map_or_else(|_| Vec::new(), records);
    let answer = match &tree {
        Ok(_) => {
            let text = sheet(&list);
            wanted[GUARD..GUARD + text.len()].copy_from_slice(&text);
            FILLED + text.len() as u64
        }
        Err(refusal) => REFUSED + u64::from(refusal.code()),
    };
    let text = (&mut found[lent]).try_into().map_err(|_| "a text of another length")?;
    let said = sheet_fill(bytes, text);
    ensure(said == answer, || format!("found {said:#x}, wanted {answer:#x}: {}", shown(bytes)))?;
    for (at, (found, wanted)) in found.iter().zip(&wanted).enumerate() {
        let index = || at as isize - GUARD as isize;
        let with = || format!("byte {}: found {found:#04x}, wanted {wanted:#04x}: {}", index(), shown(bytes));
        ensure(found == wanted, with)?;
    }
    match tree {
        Ok(tree) => {
            seen.refusals.note(0);
            seen.kinds.note(&list);
            let calls = tree.nodes().filter(|node| tree.other_callee(*node).is_some()).count();
            seen.off_the_list += usize::from(!list.is_empty() && calls > list.len());
            seen.spare += usize::from(differs_over_all(&tree));
            let text = &found[GUARD..GUARD + (said - FILLED) as usize];
            pages::in_order(text, &list).map_err(|difference| format!("{difference}: {}", shown(bytes)))
        }
        Err(refusal) => {
            seen.refusals.note(refusal.code());
            Ok(())
        }
    }
}

fn agree(seen: &mut Seen, random: &mut Random, bytes: &[u8]) -> Outcome {
    let noise = random.bytes(SHEET_BYTES + 2 * GUARD);
    fill(seen, bytes, noise)
}

#[test]
fn all_kinds_of_tables() -> Outcome {
    let (mut seen, mut random) = (Seen::default(), Random::new(401));
    SheetTables::new(402).take(TABLES).try_for_each(|bytes| agree(&mut seen, &mut random, &bytes))?;
    seen.kinds.often(60)?;
    seen.refusals.often(10_000, 100)?;
    println!("{} with a call off the list, {} with another list over all bodies", seen.off_the_list, seen.spare);
    ensure(seen.off_the_list >= 2_500, || format!("{} with a call off the list", seen.off_the_list))?;
    ensure(seen.spare >= 300, || format!("{} with another list over all bodies", seen.spare))
}

/// The longest lists, whatever was in the text before.
#[test]
fn any_text_before() -> Outcome {
    let (mut seen, mut random) = (Seen::default(), Random::new(411));
    for resources in [7, 15, 23, 31] {
        let full = longest(&mut random, resources);
        for bytes in [&full[..], &full[..full.len() - 1], &tower_beside(), &deep_beside()] {
            for byte in [0, b' ', b'\n', b'0', 0xff] {
                fill(&mut seen, bytes, vec![byte; SHEET_BYTES + 2 * GUARD])?;
            }
        }
    }
    Ok(())
}

/// A text that has a sheet already gets the next one over it.
#[test]
fn one_sheet_over_another() -> Outcome {
    let mut text = [0; SHEET_BYTES];
    let full = longest(&mut Random::new(412), 31);
    let said = sheet_fill(&full, &mut text);
    ensure(said == FILLED + SHEET_BYTES as u64, || format!("{said:#x}"))?;
    let long = text;
    let bytes = assemble("fun f() = 1  fun main() = add(f(), f())").map_err(|error| format!("{error:?}"))?;
    let said = sheet_fill(&bytes, &mut text);
    ensure(said == FILLED + PAGE_BYTES as u64, || format!("{said:#x}"))?;
    ensure(text[PAGE_BYTES..] == long[PAGE_BYTES..], || "the pages after the first changed".to_string())?;
    let lines = String::from_utf8_lossy(&text[..3 * 33]);
    let wanted =
        " RES    CALL    NODE  PAGE     1\n   1       2       3            \n   1       2       4            \n";
    ensure(lines == wanted, || lines.to_string())
}

#[test]
fn examples_and_inputs_of_any_length() -> Outcome {
    let (mut seen, mut random) = (Seen::default(), Random::new(413));
    for bytes in examples::tables()? {
        agree(&mut seen, &mut random, &bytes)?;
    }
    let full = longest(&mut random, 31);
    for length in (0..12).chain([5251, 5252, 5253, 65536, 100_000]) {
        let repeated: Vec<u8> = full.iter().copied().cycle().take(length).collect();
        for bytes in [vec![0; length], vec![1; length], vec![0xff; length], repeated] {
            agree(&mut seen, &mut random, &bytes)?;
        }
    }
    Ok(())
}

/// A sheet with any byte changed, or with a page too many or too few, is seen to be wrong without the reference's own.
#[test]
fn wrong_sheets_are_seen() -> Outcome {
    let bytes = std::fs::read(examples::folder().join("pages.table")).map_err(|error| error.to_string())?;
    let list = records(&unrefused(Tree::read(&bytes), &bytes)?);
    let text = sheet(&list);
    pages::in_order(&text, &list)?;
    for at in 0..text.len() {
        for byte in [b' ', b'\n', b'0', b'2', b'E', 0xff] {
            let mut changed = text.clone();
            changed[at] = byte;
            let is_wrong = pages::in_order(&changed, &list).is_err();
            ensure(is_wrong == (byte != text[at]), || format!("byte {at} changed to {byte:#04x}"))?;
        }
    }
    let longer = [&text[..], &sheet(&[])].concat();
    for other in [&text[..0], &text[..text.len() - PAGE_BYTES], &text[PAGE_BYTES..], &longer] {
        ensure(pages::in_order(other, &list).is_err(), || format!("{} bytes", other.len()))?;
    }
    Ok(())
}
