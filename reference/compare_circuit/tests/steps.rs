//! Single steps of the proved circuit against the reference: the answer and the whole state after each.

use compare_circuit::rounds::{some_table, some_tags, tree_of, Round, EMPTY_LIST, LIST_HELD, LIST_MISSED, NARROW};
use compare_circuit::seen::Seen;
use design::asm::assemble;
use design::circuit::Answer;
use design::difference::{ensure, Outcome};
use design::kinds::Kinds;
use design::random::Random;
use design::reading::{read, Reading};
use design::states::{any_state, arguments, damage_state};
use design::towers::{any_comb, any_deep, any_tower};
use design::width_kinds::{is_narrow, ASTRAY, LOSSES, STARTED};
use design::Node;

/// Schedules from a start. So many of them at least step a design with a narrow function, and so many lose bits on the
/// way.
const SCHEDULES: usize = 26_000;
const NARROW_SCHEDULES: usize = 20_000;
const LOST_SCHEDULES: usize = 4_000;

/// Rounds from any state, and how many of them at least have a design with a narrow function.
const STANDINGS: usize = 9_000;
const NARROW_STANDINGS: usize = 6_750;

/// A schedule with a step in which a result, an argument or an answer was cut.
const LOST: &str = "a step lost bits";

/// Steps up to which a reading is followed.
const LIMIT: u64 = 400;

/// One schedule from a start, and what occurred in it.
struct Schedule {
    round: Round,
    arguments: Vec<u32>,
    reading: Option<Reading>,
    taken: u64,
    refused: usize,
    out_of_order: bool,
}

impl Schedule {
    fn started(random: &mut Random, bytes: Vec<u8>) -> Result<Schedule, String> {
        let tags = some_tags(random, &bytes)?;
        let tree = tree_of(&bytes)?;
        let arguments = arguments(random, &tree);
        let reading = read(&tree, &arguments, LIMIT);
        let round = Round::begun(random, bytes, tags, &arguments)?;
        Ok(Schedule { round, arguments, reading, taken: 0, refused: 0, out_of_order: false })
    }

    /// Asks at one node: an answer has to be the reading's, with its count, and no step comes after it.
    fn ask(&mut self, random: &mut Random) -> Result<Answer, String> {
        let node = self.round.some_node(random);
        let lowest = self.round.lowest_step();
        let answer = self.round.step(node)?;
        if matches!(answer, Answer::Refused(_)) {
            self.refused += 1;
            return Ok(answer);
        }
        self.taken += 1;
        self.out_of_order |= lowest.is_some_and(|lowest| lowest.0 != node);
        let wanted = self.reading.map(|reading| (reading.value, reading.count));
        let fits = match answer {
            Answer::Answered(value) => wanted == Some((value, self.taken)),
            _ => wanted.is_none_or(|(_, count)| self.taken < count),
        };
        let wrong = || format!("{answer:?} at step {}, wanted {wanted:?}, arguments {:?}", self.taken, self.arguments);
        ensure(fits, || self.round.told(wrong()))?;
        Ok(answer)
    }
}

/// Asks until main answers and a little on, or until the asks are used up; tells what the steps did with widths.
fn schedule(random: &mut Random, seen: &mut Seen, bytes: Vec<u8>, mut asks: usize) -> Result<Kinds, String> {
    let mut schedule = Schedule::started(random, bytes)?;
    let tagging = schedule.round.tagging()?;
    let mut answered = false;
    while asks > 0 {
        asks -= 1;
        let answer = schedule.ask(random)?;
        seen.answer(answer);
        // The arbiter list is enough: with its calls tagged, none but a tagged one ever has to wait.
        let untagged_waits = matches!(answer, Answer::Refused(refusal) if refusal.number == 23);
        ensure(!untagged_waits || tagging == LIST_MISSED, || schedule.round.told(format!("23, and {tagging}")))?;
        if matches!(answer, Answer::Answered(_)) {
            answered = true;
            asks = asks.min(4);
        }
    }
    seen.note(tagging);
    seen.note_if("answered as the reading says", answered);
    seen.note_if("answered so where the tags miss some of the list", answered && tagging == LIST_MISSED);
    seen.note_if(
        "answered so out of order, with refused steps",
        answered && schedule.out_of_order && schedule.refused > 4,
    );
    seen.note_if("goes on past the limit", schedule.reading.is_none());
    seen.note_if(NARROW, is_narrow(&schedule.round.tree) && schedule.taken > 0);
    seen.note_if(LOST, schedule.round.widths.any(&LOSSES));
    Ok(schedule.round.widths)
}

#[test]
fn schedules_from_a_start() -> Outcome {
    let (mut random, mut seen, mut widths) = (Random::new(401), Seen::default(), Kinds::default());
    for _ in 0..SCHEDULES {
        let bytes = some_table(&mut random);
        let asks = if bytes.len() > 1000 { 60 } else { random.within(20, 400) };
        widths.add(schedule(&mut random, &mut seen, bytes, asks)?);
    }
    widths.often(&STARTED, 1500)?;
    widths.never(&ASTRAY)?;
    let wanted = [
        (NARROW, NARROW_SCHEDULES),
        (LOST, LOST_SCHEDULES),
        ("taken", 800_000),
        (EMPTY_LIST, SCHEDULES / 3),
        (LIST_HELD, SCHEDULES / 5),
        (LIST_MISSED, SCHEDULES / 12),
        ("answered as the reading says", SCHEDULES / 3),
        ("answered so where the tags miss some of the list", SCHEDULES / 50),
        ("answered so out of order, with refused steps", SCHEDULES / 6),
        ("goes on past the limit", SCHEDULES / 5),
    ];
    seen.often("schedules", &wanted)?;
    seen.refused_often("schedules", [12, 20, 21, 22, 23], 5000)
}

#[test]
fn towers_and_deep_chains() -> Outcome {
    let (mut random, mut seen) = (Random::new(402), Seen::default());
    for _ in 0..40 {
        for bytes in [any_tower(&mut random), any_deep(&mut random), any_comb(&mut random)] {
            schedule(&mut random, &mut seen, bytes, 150)?;
        }
    }
    seen.often("towers", &[("taken", 5000), (LIST_HELD, 40), (LIST_MISSED, 10), (NARROW, 80), (LOST, 5)])
}

/// States that no start leads to: asked at many nodes each, and some steps on from there.
#[test]
fn steps_from_any_state() -> Outcome {
    let (mut random, mut seen, mut widths) = (Random::new(403), Seen::default(), Kinds::default());
    for _ in 0..STANDINGS {
        let bytes = some_table(&mut random);
        let tree = tree_of(&bytes)?;
        let tags = some_tags(&mut random, &bytes)?;
        let mut state = any_state(&mut random, &tree);
        if random.once_in(6) {
            damage_state(&mut random, &tree, &mut state);
        }
        let count = tree.node_count() as u16;
        let mut asked: Vec<u16> = vec![0, count + 1, u16::MAX];
        match count {
            1..=24 => asked.extend(1..=count),
            _ => asked.extend((0..12).map(|_| random.within(1, count.into()) as u16)),
        }
        seen.note_if(NARROW, is_narrow(&tree));
        let mut round = Round::standing(bytes, tags, state)?;
        let (own, lent) = (round.own.clone(), round.lent.clone());
        for node in asked {
            seen.answer(round.step(node)?);
            (round.own, round.lent) = (own.clone(), lent.clone());
        }
        for _ in 0..random.below(30) {
            let node = round.some_node(&mut random);
            seen.answer(round.step(node)?);
        }
        widths.add(round.widths);
    }
    widths.often(&[&STARTED[..], &ASTRAY].concat(), 50)?;
    seen.often("any state", &[("taken", 50_000), ("answered", 1000), (NARROW, NARROW_STANDINGS)])?;
    seen.refused_often("any state", [12, 20, 21, 22, 23, 24], 1000)
}

/// The steps of the rules: started with both tags, after 2, 3, 5, 4, 6, 3 under both the call at 5 has to wait, and the
/// tags of that step alone tell how.
#[test]
fn two_calls_beside_each_other() -> Outcome {
    let bytes = assemble("fun f(x) = x  fun main(x) = beside(f(x), f(x))").map_err(|error| format!("{error:?}"))?;
    for (tags, number) in [(0b10100, 22), (0b10000, 22), (0, 23), (0b00100, 23)] {
        let mut round = Round::started(bytes.clone(), vec![0b10100], &[5])?;
        for node in [2, 3, 5, 4, 6, 3] {
            let answer = round.step(node)?;
            ensure(answer == Answer::Taken, || format!("{answer:?} at {node}"))?;
        }
        round.tags = vec![tags];
        let answer = round.step(5)?;
        let fits = matches!(answer, Answer::Refused(refusal) if (refusal.number, refusal.place) == (number, Node(5)));
        ensure(fits, || format!("{answer:?} with tags {tags:#b}"))?;
    }
    Ok(())
}
