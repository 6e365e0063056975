//! The proved table check against the reference: random tables from fixed seeds, and the limits.

mod refusals;

use compare::table_check;
use design::asm::assemble;
use design::check;
use design::damage::damaged;
use design::difference::{code, ensure, shown, told, Outcome};
use design::examples;
use design::generator::{accepted, accepted_of};
use design::random::Random;
use refusals::Refusals;

/// Tables per seed and seeds: 120000 tables in all.
const TABLES: usize = 30000;
const SEEDS: [u64; 4] = [101, 102, 103, 104];

fn agree(bytes: &[u8]) -> Result<u32, String> {
    let (found, wanted) = (table_check(bytes), code(check(bytes)));
    ensure(found == wanted, || format!("found {}, wanted {}: {}", told(found), told(wanted), shown(bytes)))?;
    Ok(wanted)
}

fn is_refused(bytes: &[u8], number: u32, place: u32) -> Outcome {
    let (found, wanted) = (agree(bytes)?, number * 65536 + place);
    ensure(found == wanted, || format!("both say {}, not {}: {}", told(found), told(wanted), shown(bytes)))
}

fn is_accepted(bytes: &[u8]) -> Outcome {
    is_refused(bytes, 0, 0)
}

fn table(text: &str) -> Vec<u8> {
    assemble(text).expect("a text in order")
}

#[test]
fn random_tables() -> Outcome {
    let mut refusals = Refusals::default();
    for seed in SEEDS {
        let mut random = Random::new(seed);
        for _ in 0..TABLES {
            let bytes = if random.below(20) < 9 { accepted(&mut random) } else { damaged(&mut random) };
            refusals.note(agree(&bytes)?);
        }
    }
    refusals.often(SEEDS.len() * TABLES / 3, 500)
}

#[test]
fn most_functions_and_nodes() -> Outcome {
    let mut functions: String = (1..32).map(|i| format!("fun f{i}() = 1\n")).collect();
    functions += &format!("fun main() = {}1{}", "double(".repeat(480), ")".repeat(480));
    let bytes = table(&functions);
    ensure(bytes[..4] == [32, 0, 0, 2], || "the limits are not met".to_string())?;
    is_accepted(&bytes)?;
    let with = |functions: u16, nodes: u16| {
        let mut bytes = bytes.clone();
        bytes.resize(4 + 4 * usize::from(functions) + 10 * usize::from(nodes), 0);
        bytes[..2].copy_from_slice(&functions.to_le_bytes());
        bytes[2..4].copy_from_slice(&nodes.to_le_bytes());
        bytes
    };
    for (functions, nodes) in [(33, 512), (0, 512), (32, 513), (32, 0), (0, 0), (33, 513), (65535, 1), (1, 65535)] {
        is_refused(&with(functions, nodes), 2, 0)?;
        is_refused(&with(functions, nodes)[..4], 2, 0)?;
    }
    let mut random = Random::new(105);
    for _ in 0..40 {
        is_accepted(&accepted_of(&mut random, 512))?;
        is_accepted(&accepted_of(&mut random, 1))?;
    }
    Ok(())
}

#[test]
fn short_inputs() -> Outcome {
    is_refused(&[], 1, 0)?;
    for length in 0..4 {
        is_refused(&[1, 0, 1, 0][..length], 1, 0)?;
        is_refused(&table("fun main() = 1")[..length], 1, 0)?;
        is_refused(&[0xff; 4][..length], 1, 0)?;
    }
    is_refused(&[0; 4], 2, 0)?;
    is_refused(&[1, 0, 1, 0], 3, 0)?;
    Ok(())
}

#[test]
fn missing_and_trailing_bytes() -> Outcome {
    let bytes = table("fun f(x) = x  fun main(x) = beside(f(x), f(x))");
    is_accepted(&bytes)?;
    for length in 4..bytes.len() {
        is_refused(&bytes[..length], 3, 0)?;
    }
    let mut longer = bytes.clone();
    for _ in 0..24 {
        longer.push(0);
        is_refused(&longer, 3, 0)?;
    }
    Ok(())
}

#[test]
fn eight_parameters_and_nine() -> Outcome {
    let mut bytes = table(
        "fun f(a, b, c, d, e, g, h, i) = beside(a, b, c, d, e, g, h, i)
        fun main(a, b, c, d, e, g, h, i) = f(i, h, g, e, d, c, b, a)",
    );
    is_accepted(&bytes)?;
    for count in 9..=255 {
        bytes[8] = count;
        is_refused(&bytes, 5, 0)?;
    }
    Ok(())
}

#[test]
fn calls_without_arguments() -> Outcome {
    is_accepted(&table("fun f() = 7  fun main() = f()"))?;
    is_accepted(&table("fun main() = main()"))?;
    is_refused(&table("fun f() = 7  fun main() = beside(main())"), 9, 3)?;
    Ok(())
}

#[test]
fn deep_chains() -> Outcome {
    let chain = |nodes: usize| format!("{}1{}", "double(".repeat(nodes - 1), ")".repeat(nodes - 1));
    is_accepted(&table(&format!("fun main() = {}", chain(512))))?;
    let branches = "if 1 then 2 else ".repeat(170);
    is_accepted(&table(&format!("fun main(x) = {branches} main(x)")))?;
    let lets: String = (0..255).map(|i| format!("let a{i} = 1 in ")).collect();
    is_accepted(&table(&format!("fun main() = {lets} a0")))?;
    // The same chain with the bound at its end naming itself.
    let mut bytes = table(&format!("fun main() = {lets} a0"));
    let word = 8 + 10 * 510 + 2;
    bytes[word..word + 4].copy_from_slice(&511u32.to_le_bytes());
    is_refused(&bytes, 8, 511)?;
    Ok(())
}

/// Every byte of small tables set to every value: each rule that looks at one field.
#[test]
fn every_byte_of_small_tables() -> Outcome {
    for text in [
        "fun f(x) = x  fun main(x) = beside(f(x), f(x))",
        "fun f(x) = if x then f(halve(x)) else let a = 1, b = x in add(a, b)",
        "fun f() = 3  fun g(x, y) = let a = f() in g(a, less(x, y))  fun main() = g(1, f())",
        "fun f(x): 4 = add(x, 15)  fun main(x): 8 = if less(x, 200) then f(x) else main(halve(x))",
    ] {
        let bytes = table(text);
        for at in 0..bytes.len() {
            for value in 0..=255 {
                let mut changed = bytes.clone();
                changed[at] = value;
                agree(&changed)?;
            }
        }
    }
    Ok(())
}

#[test]
fn examples() -> Outcome {
    for bytes in examples::tables()? {
        agree(&bytes)?;
    }
    Ok(())
}
