//! The run on a budget of the proved circuit against the reference and the plain reading.

use compare_circuit::rounds::{some_table, some_tags, tree_of, Round, EMPTY_LIST, LIST_HELD, LIST_MISSED, NARROW};
use compare_circuit::seen::Seen;
use design::circuit::Ending;
use design::difference::{ensure, Outcome};
use design::random::Random;
use design::reading::{read, Reading};
use design::states::arguments;
use design::towers::{any_comb, any_deep, any_tower};
use design::width_kinds::is_narrow;

const DRIVES: usize = 6_000;

/// Steps up to which a reading is followed.
const LIMIT: u64 = 2_000;

fn some_budget(random: &mut Random, left: u64, ends: bool) -> u32 {
    let budget = match random.below(6) {
        0 => random.below(4) as u64,
        1 => left,
        2 => left.saturating_sub(1),
        3 if ends => u64::from(u32::MAX),
        4 if ends => left + 1,
        _ => random.below(left as usize + 1) as u64,
    };
    budget as u32
}

/// A drive from a start comes to what the reading says, in one go or in several, and never comes to rest.
#[test]
fn drives_from_a_start() -> Outcome {
    let (mut random, mut seen) = (Random::new(423), Seen::default());
    for count in 0..DRIVES {
        let bytes = match count % 200 {
            0 => any_tower(&mut random),
            1 => any_deep(&mut random),
            2 => any_comb(&mut random),
            _ => some_table(&mut random),
        };
        let tree = tree_of(&bytes)?;
        let tags = some_tags(&mut random, &bytes)?;
        let arguments = arguments(&mut random, &tree);
        let reading = read(&tree, &arguments, LIMIT);
        let round = Round::begun(&mut random, bytes, tags, &arguments)?;
        seen.note(round.tagging()?);
        seen.note_if(NARROW, is_narrow(&tree));
        let told = drive_on(&mut random, &mut seen, round, reading);
        told.map_err(|difference| format!("{difference}\narguments {arguments:?}"))?;
    }
    let wanted = [
        (NARROW, DRIVES * 3 / 4),
        (EMPTY_LIST, DRIVES / 3),
        (LIST_HELD, DRIVES / 5),
        (LIST_MISSED, DRIVES / 12),
        ("answered as the reading says", DRIVES / 2),
        ("answered so in several drives", DRIVES / 6),
        ("goes on past the limit", DRIVES / 6),
    ];
    seen.often("drives", &wanted)
}

/// Drives until main answers, or for long where the reading doesn't end.
fn drive_on(random: &mut Random, seen: &mut Seen, mut round: Round, reading: Option<Reading>) -> Outcome {
    let (mut taken, mut drives) = (0, 0);
    loop {
        let left = reading.map_or(LIMIT, |reading| reading.count) - taken;
        let budget = some_budget(random, left, reading.is_some());
        let told = round.drive(random, budget)?.map_err(|refusal| format!("{refusal:?}"))?;
        taken += u64::from(told.0);
        drives += 1;
        let total = || round.told(format!("{taken} steps in all, then {told:?}, the reading is {reading:?}"));
        match (told.1, reading) {
            (Ending::Answered(value), Some(reading)) => {
                ensure((value, taken) == (reading.value, reading.count), total)?;
                // Answered is looked at before anything else.
                let budget = random.below(2) as u32;
                let again = round.drive(random, budget)?;
                ensure(again == Ok((0, Ending::Answered(value))), || round.told(format!("then {again:?}")))?;
                seen.note("answered as the reading says");
                seen.note_if("answered so in several drives", drives > 1);
                return Ok(());
            }
            (Ending::Spent, _) => ensure(reading.is_none_or(|reading| taken < reading.count), total)?,
            _ => return Err(total()),
        }
        if reading.is_none() && taken >= LIMIT / 2 {
            seen.note("goes on past the limit");
            return Ok(());
        }
    }
}

/// Drives of few steps, one after the other, and then a long one.
#[test]
fn drives_step_by_step() -> Outcome {
    let (mut random, mut seen) = (Random::new(424), Seen::default());
    for _ in 0..DRIVES {
        let mut round = Round::some(&mut random, &mut seen)?;
        for _ in 0..random.within(1, 25) {
            let budget = random.pick(&[0, 1, 1, 1, 2, 3]);
            let told = round.drive(&mut random, budget)?;
            note(&mut seen, budget, &told);
            if told.is_err() {
                break;
            }
            seen.note_if("all of several steps taken", told == Ok((budget, Ending::Spent)) && budget > 1);
        }
        let budget = random.below(400) as u32;
        let _ = round.drive(&mut random, budget)?;
    }
    let wanted = [
        (NARROW, DRIVES * 3 / 4),
        ("from a start", DRIVES / 3),
        ("from any state", DRIVES / 3),
        (EMPTY_LIST, DRIVES / 3),
        (LIST_HELD, DRIVES / 5),
        (LIST_MISSED, DRIVES / 12),
        ("at rest", 3000),
        ("at rest on no budget", 500),
        ("at rest at once on some budget", 2000),
        ("answered", 10_000),
        ("answered on no budget", 2000),
        ("answered at once on some budget", 10_000),
        ("spent", 20_000),
        ("spent on no budget", 4000),
        ("all of several steps taken", 5000),
    ];
    seen.often("drives step by step", &wanted)?;
    seen.refused_often("drives step by step", [24], 200)
}

fn note(seen: &mut Seen, budget: u32, told: &Result<(u32, Ending), design::Refusal>) {
    let kind = match told {
        Ok((_, Ending::AtRest)) => "at rest",
        Ok((_, Ending::Answered(_))) => "answered",
        Ok((_, Ending::Spent)) => "spent",
        Err(refusal) => return seen.refused(refusal.number),
    };
    seen.note(kind);
    seen.note_if(&format!("{kind} on no budget"), budget == 0);
    if kind != "spent" {
        seen.note_if(&format!("{kind} at once on some budget"), budget > 0 && told.is_ok_and(|(taken, _)| taken == 0));
    }
}
