//! The sheet program as it is used: a table through standard input, and what it prints, byte for byte.

mod pages;
mod running;

use std::fs::File;
use std::process::Command;

use design::difference::{ensure, shown, Outcome};
use design::examples;
use design::list::{differs_over_all, records};
use design::listings::{longest, SheetTables};
use design::random::Random;
use design::sheet::program;
use design::sheet_kinds::SheetKinds;
use design::towers::tower_beside;
use design::Tree;
use running::{binary, folder, printed};

const PROGRAM: &str = "sheet";
const LIST_PROGRAM: &str = "arbiters";

/// Tables per seed and seeds: 12000 tables in all, and two processes at a time.
const TABLES: usize = 6_000;
const SEEDS: [u64; 2] = [421, 422];

/// Bad tables of each seed that the list program is run on too.
const LISTED: usize = 400;

#[derive(Default)]
struct Seen {
    kinds: SheetKinds,
    refused: usize,
    /// Tables of which the list over all bodies is another.
    spare: usize,
}

fn agree_in_pieces(seen: &mut Seen, input: &[u8], piece: usize) -> Outcome {
    let (found, wanted) = (printed(PROGRAM, input, piece)?, program(input));
    let with = || format!("{} bytes {}", input.len(), shown(&input[..input.len().min(6000)]));
    ensure(found == wanted, || {
        let [found, wanted] = [&found, &wanted].map(|text| String::from_utf8_lossy(text));
        format!("printed\n{found}wanted\n{wanted}{}", with())
    })?;
    match Tree::read(input) {
        Ok(tree) => {
            let list = records(&tree);
            seen.kinds.note(&list);
            seen.spare += usize::from(differs_over_all(&tree));
            pages::in_order(&found, &list).map_err(|difference| format!("{difference}: {}", with()))
        }
        Err(_) if seen.refused < LISTED => {
            seen.refused += 1;
            let listed = printed(LIST_PROGRAM, input, piece)?;
            ensure(found == listed, || format!("the list program printed {}", String::from_utf8_lossy(&listed)))
        }
        Err(_) => {
            seen.refused += 1;
            Ok(())
        }
    }
}

fn agree(seen: &mut Seen, input: &[u8]) -> Outcome {
    agree_in_pieces(seen, input, usize::MAX)
}

fn tables_of(seed: u64) -> Result<Seen, String> {
    let mut seen = Seen::default();
    SheetTables::new(seed).take(TABLES).try_for_each(|bytes| agree(&mut seen, &bytes))?;
    Ok(seen)
}

#[test]
fn all_kinds_of_tables() -> Outcome {
    let mut seen = Seen::default();
    for thread in SEEDS.map(|seed| std::thread::spawn(move || tables_of(seed))) {
        let other = thread.join().map_err(|_| "a thread panicked".to_string())??;
        ensure(other.refused >= LISTED, || format!("{} refused", other.refused))?;
        seen.kinds.add(other.kinds);
        seen.refused += other.refused;
        seen.spare += other.spare;
    }
    println!("{} refused, {} with another list over all bodies", seen.refused, seen.spare);
    seen.kinds.often(40)?;
    ensure(seen.refused >= 2_000, || format!("{} refused", seen.refused))?;
    ensure(seen.spare >= 250, || format!("{} with another list over all bodies", seen.spare))
}

#[test]
fn examples_and_inputs_of_any_length() -> Outcome {
    let mut seen = Seen::default();
    for bytes in examples::tables()? {
        agree(&mut seen, &bytes)?;
    }
    let full = longest(&mut Random::new(431), 31);
    for length in (0..12).chain([5251, 5252, 5253, 65536, 65537, 100_000]) {
        let repeated: Vec<u8> = full.iter().copied().cycle().take(length).collect();
        for bytes in [vec![0; length], vec![1; length], vec![0xff; length], repeated] {
            agree(&mut seen, &bytes)?;
        }
    }
    Ok(())
}

/// A pipe may hand over the input bit by bit.
#[test]
fn input_in_pieces() -> Outcome {
    let mut seen = Seen::default();
    let full = longest(&mut Random::new(432), 31);
    for piece in [10, 100, 4096] {
        agree_in_pieces(&mut seen, &full[..full.len() - 1], piece)?;
        agree_in_pieces(&mut seen, &full, piece)?;
    }
    for piece in [1, 3, 7, 10, 100, 4096] {
        agree_in_pieces(&mut seen, &tower_beside()[..300], piece)?;
    }
    Ok(())
}

/// A second run on the same input prints the same, and so does one from a file.
#[test]
fn from_a_file() -> Outcome {
    let said = |error: std::io::Error| error.to_string();
    for name in ["main_beside", "pages", "self_argument"] {
        let path = folder("examples").join(format!("{name}.table"));
        let wanted = program(&std::fs::read(&path).map_err(said)?);
        for _ in 0..2 {
            let input = File::open(&path).map_err(said)?;
            let output = Command::new(binary(PROGRAM)?).stdin(input).output().map_err(said)?;
            let as_wanted = output.status.success() && output.stdout == wanted && output.stderr.is_empty();
            ensure(as_wanted, || format!("{name}: {output:?}"))?;
        }
    }
    Ok(())
}
