//! Starts of the proved circuit against the reference, and what every entry does with a bad table or bad tags.

use compare::list_missing;
use compare_circuit::lent::Lent;
use compare_circuit::seen::Seen;
use compare_circuit::{drive, query, run, start, step};
use design::circuit::{self, Answer, State};
use design::difference::{ensure, shown, Outcome};
use design::kinds::Kinds;
use design::list::tag_length;
use design::random::Random;
use design::start_cases::cases;
use design::starts::{nodes_of, parameters_of, Start, ALONE, ORDER};
use design::states::{any_state, damage_state};
use design::table::narrow;
use design::tag_kinds::{HELD, MISSED};
use design::{Function, Node, Refusal, Table, Tree};

const STARTS: usize = 16_000;

/// A state with something in every part, past N and F too.
fn noise(random: &mut Random) -> State {
    let mut state = State::zero();
    for node in &mut state.nodes {
        node.status = random.number() as u8;
        node.second = random.once_in(2);
        node.value = random.word();
    }
    for function in &mut state.functions {
        function.registers = std::array::from_fn(|_| random.word());
        function.occupant.0 = random.number() as u16;
    }
    state
}

/// Which of the causes of 10 it is, and whether 4 and 5 name a node.
fn note_refusal(seen: &mut Seen, refusal: Refusal, bytes: &[u8], tags: &[u8]) {
    let right_length = Tree::read(bytes).is_ok_and(|tree| tags.len() == tag_length(&tree));
    seen.refused(refusal.number);
    match (refusal.number, refusal.place) {
        (4, Node(0)) => seen.note("4 at a root out of range"),
        (4, _) => seen.note("4 at a node"),
        (5, Node(0)) => seen.note("5 at a function record"),
        (5, _) => seen.note("5 at a node"),
        (10, Node(0)) if right_length => seen.note("10 for a tag past N"),
        (10, Node(0)) => seen.note("10 for the length"),
        (10, _) => seen.note("10 at a node"),
        _ => {}
    }
}

/// What would be refused after 25, and where a start cuts an argument.
fn note_start(seen: &mut Seen, told: Result<(), Refusal>, bytes: &[u8], tags: &[u8], arguments: &[u32]) {
    let (table, nodes) = (Table::new(bytes), nodes_of(bytes));
    let main = Function(table.function_count());
    match told {
        Ok(()) => {
            let cut = |value: &u32| narrow(table.width(main), *value) != *value;
            seen.note_if("an argument cut by the start", arguments.iter().any(cut));
        }
        Err(refusal) if refusal.number == 25 => {
            let (other_tags, count) = (tags.len() != nodes.div_ceil(8), parameters_of(bytes));
            let no_tags = !other_tags && tags.iter().all(|byte| *byte == 0);
            seen.note_if("25 beside 10", other_tags);
            seen.note_if("25 beside 11", no_tags && arguments.len() != count);
            seen.note_if("25 alone", no_tags && arguments.len() == count);
        }
        _ => {}
    }
}

/// What `note_refusal` tells apart, each of it wanted this often.
const CAUSES: [(&str, usize); 7] = [
    ("4 at a root out of range", 80),
    ("4 at a node", 450),
    ("5 at a function record", 90),
    ("5 at a node", 220),
    ("10 for a tag past N", 350),
    ("10 for the length", 700),
    ("10 at a node", 450),
];

/// A start from a state full of noise, past N and F too: both say the same, and it makes all of the state anew, or
/// keeps all of it if it is refused. What the search for a call without a tag says fits.
fn same_start(random: &mut Random, case: &Start) -> Result<Result<(), Refusal>, String> {
    let Start { bytes, tags, arguments } = case;
    let before = noise(random);
    let (mut own, mut lent) = (before.clone(), Lent::of(&before));
    let wanted = circuit::start(bytes, tags, arguments, &mut own);
    let found = start(bytes, tags, arguments, &mut lent)?;
    let with = || format!("table {}, tags {}, arguments {arguments:?}", shown(bytes), shown(tags));
    ensure(found == wanted, || format!("said {found:?}, wanted {wanted:?}: {}", with()))?;
    if wanted.is_err() {
        own = before;
    }
    lent.same_as(&own).map_err(|difference| format!("after {wanted:?} {difference}: {}", with()))?;
    let missing = list_missing(bytes, tags);
    let fits = match wanted {
        Ok(()) => missing == 0,
        Err(Refusal { number: 26, place }) => missing == 1 << 32 | u64::from(place.0),
        Err(Refusal { number: 11, .. }) => missing < 2 << 32,
        Err(refusal) => missing == 2 << 32 | u64::from(refusal.code()),
    };
    ensure(fits, || format!("{wanted:?}, but missing is {missing:#x}: {}", with()))?;
    Ok(wanted)
}

#[test]
fn starts() -> Outcome {
    let (mut random, mut seen, mut kinds) = (Random::new(411), Seen::default(), Kinds::default());
    for _ in 0..STARTS {
        let case = Start::some(&mut random);
        let told = same_start(&mut random, &case)?;
        note_start(&mut seen, told, &case.bytes, &case.tags, &case.arguments);
        match told {
            Ok(()) => seen.note("started"),
            Err(refusal) => note_refusal(&mut seen, refusal, &case.bytes, &case.tags),
        }
        kinds.note(case.kinds());
    }
    seen.often("starts", &CAUSES)?;
    seen.at_least("starts", &[("started", 4000), ("refused 11", 1000), ("an argument cut by the start", 1300)])?;
    seen.at_least("starts", &[("25 beside 10", 210), ("25 beside 11", 100), ("25 alone", 150), ("refused 26", 1200)])?;
    seen.refused_often("starts", (1..=11).chain([25, 26]), 120)?;
    kinds.often(&[&ORDER[..], &ALONE, &HELD, &MISSED].concat(), 50)?;
    kinds.at_least(&[("11 before 26", 300), ("10 before 26", 250), ("26 alone", 1_200), ("nothing is refused", 4_000)])
}

/// The starts that were worked out: which calls need a tag, and what comes before that.
#[test]
fn named_starts() -> Outcome {
    let mut random = Random::new(413);
    for case in cases() {
        let handed = Start { bytes: case.bytes, tags: case.tags, arguments: case.arguments };
        let told = same_start(&mut random, &handed).map_err(|message| format!("{}: {message}", case.name))?;
        ensure(told == case.answer, || format!("{}: {told:?}, wanted {:?}", case.name, case.answer))?;
    }
    Ok(())
}

/// The refusals before any step: the table's, then the tags', then for a step 12, then 24. All keep the state, and
/// the count of a run.
#[test]
fn refused_before_any_step() -> Outcome {
    let (mut random, mut seen) = (Random::new(412), Seen::default());
    for _ in 0..STARTS {
        let Start { bytes, tags, .. } = Start::some(&mut random);
        let mut own = match Tree::read(&bytes) {
            Ok(tree) => any_state(&mut random, &tree),
            Err(_) => noise(&mut random),
        };
        if let Ok(tree) = Tree::read(&bytes) {
            if random.once_in(2) {
                damage_state(&mut random, &tree, &mut own);
            }
        }
        let Err(refusal) = circuit::query(&bytes, &tags, &own) else {
            continue;
        };
        note_refusal(&mut seen, refusal, &bytes, &tags);
        all_refused(&mut random, &bytes, &tags, &own, refusal)?;
        seen.note(match refusal.number {
            1..=9 | 25 => "for the table",
            10 => "for the tags",
            _ => "for the state",
        });
    }
    seen.often("before any step", &CAUSES)?;
    let wanted = ["for the table", "for the tags", "for the state"].map(|cause| (cause, 1500));
    seen.at_least("before any step", &wanted)?;
    seen.refused_often("before any step", (1..=10).chain([24, 25]), 120)
}

fn all_refused(random: &mut Random, bytes: &[u8], tags: &[u8], own: &State, refusal: Refusal) -> Outcome {
    let mut lent = Lent::of(own);
    let with = |what: &str| format!("{what}, wanted {refusal:?}: table {}, tags {}", shown(bytes), shown(tags));
    let kept = |lent: &Lent, what: &str| lent.same_as(own).map_err(|difference| with(&format!("{what}: {difference}")));
    let found = query(bytes, tags, &lent)?;
    ensure(found == Err(refusal), || with(&format!("query said {found:?}")))?;
    kept(&lent, "query")?;
    let nodes: Vec<u16> = (0..random.below(4)).map(|_| random.below(9) as u16).collect();
    let noise = random.number() as usize;
    let mut count = noise;
    let found = run(bytes, tags, &mut lent, &nodes, &mut count)?;
    ensure(found == Some(refusal), || with(&format!("run said {found:?}")))?;
    ensure(count == noise, || with(&format!("run made a count of {noise} {count}")))?;
    kept(&lent, "run")?;
    let budget = random.pick(&[0, 1, 7, u32::MAX]);
    let noise = random.number() as u32;
    let mut count = noise;
    let found = drive(bytes, tags, &mut lent, budget, &mut count)?;
    ensure(found == Err(refusal), || with(&format!("drive said {found:?}")))?;
    ensure(count == noise, || with(&format!("drive made a count of {noise} {count}")))?;
    kept(&lent, "drive")?;
    for node in [0, 1, u16::MAX] {
        let wanted = circuit::step(bytes, tags, &mut own.clone(), node);
        let found = step(bytes, tags, &mut lent, node)?;
        let refused = matches!(wanted, Answer::Refused(_));
        ensure(refused && found == wanted, || with(&format!("step {node} said {found:?} and not {wanted:?}")))?;
        kept(&lent, "step")?;
    }
    Ok(())
}
