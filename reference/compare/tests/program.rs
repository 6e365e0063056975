//! The list program as it is used: a table through standard input, and what it prints, byte for byte.

mod running;

use std::io::Read;
use std::process::{Command, Stdio};

use design::asm::assemble;
use design::damage::damaged;
use design::difference::{ensure, shown, Outcome};
use design::examples;
use design::generator::{accepted, accepted_of, accepted_sharing};
use design::list::{differs_over_all, program};
use design::random::Random;
use design::reach_cases::CASES;
use design::towers::{any_comb, any_deep, any_tower, deep_beside, tower_beside};
use design::Tree;
use running::{binary, folder, printed};

const PROGRAM: &str = "arbiters";

/// The longest table has 32 functions and 512 nodes.
const LONGEST: usize = 4 + 4 * 32 + 10 * 512;

fn agree_in_pieces(input: &[u8], piece: usize) -> Outcome {
    let (found, wanted) = (printed(PROGRAM, input, piece)?, program(input));
    ensure(found == wanted.as_bytes(), || {
        let found = String::from_utf8_lossy(&found).into_owned();
        format!(
            "printed {found:?}, wanted {wanted:?}: {} bytes {}",
            input.len(),
            shown(&input[..input.len().min(6000)])
        )
    })
}

fn agree(input: &[u8]) -> Outcome {
    agree_in_pieces(input, usize::MAX)
}

#[test]
fn the_text_of_the_rules() -> Outcome {
    let text = "fun f(x) = x  fun g(x) = f(x)  fun main(x) = beside(g(x), g(x))";
    let bytes = assemble(text).map_err(|error| format!("{error:?}"))?;
    let found = printed(PROGRAM, &bytes, usize::MAX)?;
    let wanted = "design 3 8\narbiter 1 2 2\narbiter 2 3 5\narbiter 2 3 7\ntotal 3\n";
    ensure(found == wanted.as_bytes(), || String::from_utf8_lossy(&found).into_owned())?;
    let found = printed(PROGRAM, &[0; 4], usize::MAX)?;
    ensure(found == b"refused 2 0\n", || String::from_utf8_lossy(&found).into_owned())
}

#[test]
fn examples() -> Outcome {
    examples::tables()?.iter().try_for_each(|bytes| agree(bytes))
}

#[test]
fn random_tables() -> Outcome {
    let mut random = Random::new(301);
    let (mut listed, mut refused, mut spare) = (0, 0, 0);
    for round in 0..600 {
        let bytes = match round % 20 {
            0..=7 => accepted_sharing(&mut random),
            8..=11 => accepted(&mut random),
            12 => any_tower(&mut random),
            13 if round % 60 == 13 => any_comb(&mut random),
            13 => any_deep(&mut random),
            _ => damaged(&mut random),
        };
        agree(&bytes)?;
        listed += usize::from(program(&bytes).contains("arbiter"));
        refused += usize::from(program(&bytes).contains("refused"));
        spare += usize::from(Tree::read(&bytes).is_ok_and(|tree| differs_over_all(&tree)));
    }
    println!("{listed} with a list, {refused} refused, {spare} with another list over all bodies");
    ensure(listed >= 150 && refused >= 100, || format!("{listed} with a list, {refused} refused"))?;
    ensure(spare >= 25, || format!("{spare} with another list over all bodies"))
}

/// Main's reach by hand.
#[test]
fn named_designs() -> Outcome {
    for case in CASES {
        let bytes = case.bytes();
        agree(&bytes)?;
        let text = String::from_utf8_lossy(&printed(PROGRAM, &bytes, usize::MAX)?).into_owned();
        let nodes = text.lines().filter(|line| line.starts_with("arbiter"));
        let mut nodes: Vec<u16> = nodes.filter_map(|line| line.rsplit(' ').next()?.parse().ok()).collect();
        nodes.sort();
        ensure(nodes == case.list, || format!("{}: {text}", case.text))?;
    }
    Ok(())
}

#[test]
fn empty_and_short_inputs() -> Outcome {
    agree(&[])?;
    for length in 1..=12 {
        agree(&vec![0; length])?;
        agree(&vec![0xff; length])?;
        agree(&[1, 0, 1, 0, 0, 0, 1, 0, 1, 0, 7, 0][..length])?;
    }
    Ok(())
}

/// Inputs longer than any table, with all kinds of beginnings.
#[test]
fn long_inputs() -> Outcome {
    let mut random = Random::new(302);
    let full = tower_beside();
    ensure(full.len() == LONGEST, || format!("{} bytes", full.len()))?;
    agree(&full)?;
    for length in [LONGEST + 1, 2 * LONGEST, 65536, 65537, 100_000] {
        for byte in [0, 1, 0xff] {
            agree(&vec![byte; length])?;
        }
        for mut bytes in [full.clone(), deep_beside(), accepted_of(&mut random, 9)] {
            bytes.resize(length, 0);
            agree(&bytes)?;
        }
        // A table again and again, and one whose F and N call for just this length or for one cut to 16 bits.
        agree(&full.iter().copied().cycle().take(length).collect::<Vec<u8>>())?;
        let mut bytes = vec![0; length];
        for nodes in [(length - 8) / 10, (length & 0xffff) / 10, 65535] {
            bytes[..4].copy_from_slice(&[1, 0, nodes as u8, (nodes >> 8) as u8]);
            agree(&bytes)?;
        }
    }
    Ok(())
}

/// A pipe may hand over the input bit by bit.
#[test]
fn input_in_pieces() -> Outcome {
    let mut random = Random::new(303);
    for piece in [1, 3, 7, 10, 100, 4096] {
        let small = accepted_of(&mut random, 12);
        agree_in_pieces(&small, piece)?;
        agree_in_pieces(&small[..small.len() - 1], piece)?;
        agree_in_pieces(&tower_beside(), piece.max(10))?;
    }
    Ok(())
}

/// A second run on the same input prints the same, and so does one from a file.
#[test]
fn from_a_file() -> Outcome {
    let path = folder("examples/main_beside.table");
    let input = std::fs::read(&path).map_err(|error| error.to_string())?;
    for _ in 0..2 {
        let file = std::fs::File::open(&path).map_err(|error| error.to_string())?;
        let mut child = Command::new(binary(PROGRAM)?)
            .stdin(file)
            .stdout(Stdio::piped())
            .spawn()
            .map_err(|error| error.to_string())?;
        let mut text = String::new();
        child.stdout.take().ok_or("no output")?.read_to_string(&mut text).map_err(|error| error.to_string())?;
        let status = child.wait().map_err(|error| error.to_string())?;
        ensure(status.success() && text == program(&input), || format!("{status}: {text}"))?;
    }
    Ok(())
}
