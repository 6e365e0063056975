//! Narrow functions in the proved circuit: named designs by step, by list and on a budget, and named single steps.

use compare_circuit::lent::Lent;
use compare_circuit::rounds::Round;
use compare_circuit::{drive, query, run, start, step};
use design::asm::assemble;
use design::circuit::{possible, Answer, Ending, State};
use design::difference::{ensure, unrefused, Outcome};
use design::list::tags_of;
use design::random::Random;
use design::width_cases::{standings, CASES};
use design::{Node, Refusal};

fn table(text: &str) -> Result<Vec<u8>, String> {
    assemble(text).map_err(|error| format!("{text}: {error:?}"))
}

/// A start as both have it, with the arbiter list as tags.
fn started(text: &str, arguments: &[u32]) -> Result<Round, String> {
    let bytes = table(text)?;
    let tags = unrefused(tags_of(&bytes), &bytes)?;
    Round::started(bytes, tags, arguments)
}

/// In any order, each step compared: the last one answers, and with this value.
fn by_step(random: &mut Random, text: &str, arguments: &[u32], wanted: (u32, u32)) -> Result<Vec<u16>, String> {
    let mut round = started(text, arguments)?;
    let mut nodes = Vec::new();
    loop {
        let open: Vec<Node> = possible(&round.tree, &round.tags, &round.own).collect();
        ensure(!open.is_empty(), || round.told(format!("{text} is at rest")))?;
        let node = random.pick(&open).0;
        nodes.push(node);
        if let Answer::Answered(value) = round.step(node)? {
            let found = (value, nodes.len() as u32);
            ensure(found == wanted, || round.told(format!("{text} of {arguments:?}: {found:?}, wanted {wanted:?}")))?;
            return Ok(nodes);
        }
    }
}

#[test]
fn named_designs() -> Outcome {
    let mut random = Random::new(431);
    for (text, arguments, value, count) in CASES {
        let nodes = by_step(&mut random, text, arguments, (value, count))?;
        let mut round = started(text, arguments)?;
        let told = round.run(&mut random, &nodes)?;
        ensure(told == Ok((count as usize, None)), || round.told(format!("{text} of {arguments:?}: {told:?}")))?;
        for budget in [count, count + 1, u32::MAX] {
            let mut round = started(text, arguments)?;
            let told = round.drive(&mut random, budget)?;
            let wanted = Ok((count, Ending::Answered(value)));
            ensure(told == wanted, || round.told(format!("{text} of {arguments:?}: {told:?}, wanted {wanted:?}")))?;
        }
    }
    Ok(())
}

/// Wide registers and values, which no start leads to: a single step, asked for in each way that there is.
#[test]
fn named_steps() -> Outcome {
    let mut random = Random::new(432);
    let mut driven = 0;
    for case in standings() {
        let standing = || Round::standing(table(case.text)?, vec![0], case.before.clone());
        let is_after = |round: &Round, what: &str| {
            let same = round.lent.same_as(&case.after);
            same.map_err(|difference| round.told(format!("{} by {what}: {difference}", case.text)))
        };
        let mut round = standing()?;
        let answer = round.step(case.node)?;
        ensure(!matches!(answer, Answer::Refused(_)), || round.told(format!("{}: {answer:?}", case.text)))?;
        is_after(&round, "step")?;
        let mut round = standing()?;
        let told = round.run(&mut random, &[case.node])?;
        ensure(told == Ok((1, None)), || round.told(format!("{}: {told:?}", case.text)))?;
        is_after(&round, "run")?;
        // The run on a budget takes the first step, which is this one in most of them.
        let mut round = standing()?;
        if round.lowest_step() == Some(Node(case.node)) {
            let told = round.drive(&mut random, 1)?;
            ensure(told.is_ok_and(|(taken, _)| taken == 1), || round.told(format!("{}: {told:?}", case.text)))?;
            is_after(&round, "drive")?;
            driven += 1;
        }
    }
    ensure(driven >= 30, || format!("{driven} steps by drive"))
}

/// What each entry says of these; all of them keep the state, and the runs their counts.
fn all_refuse(bytes: &[u8], tags: &[u8], arguments: &[u32], refusal: Refusal) -> Outcome {
    let mut state = State::zero();
    // A status that 24 would refuse, if the table didn't come first.
    state.nodes[0].status = 4;
    let mut lent = Lent::of(&state);
    let (mut steps, mut taken) = (77, 78);
    let found = [
        start(bytes, tags, arguments, &mut lent)?.err(),
        match step(bytes, tags, &mut lent, 0)? {
            Answer::Refused(refusal) => Some(refusal),
            _ => None,
        },
        run(bytes, tags, &mut lent, &[0], &mut steps)?,
        drive(bytes, tags, &mut lent, 5, &mut taken)?.err(),
        query(bytes, tags, &lent)?.err(),
    ];
    let with = || format!("{found:?}, wanted {refusal:?}, with tags {tags:?} and arguments {arguments:?}");
    ensure(found == [Some(refusal); 5] && (steps, taken) == (77, 78), with)?;
    lent.same_as(&state)
}

/// Width bytes and constants are the table's: they come before the tags, the arguments, the node and the state.
#[test]
fn refusals_of_the_table_come_first() -> Outcome {
    let refused = |number, place| Refusal { number, place: Node(place) };
    let wide = "fun f(x): 4 = x  fun main(x): 4 = f(16)";
    let also_out_of_tail = "fun f(x): 4 = x  fun main(x): 4 = beside(16, main(x))";
    let mut over = table("fun f(x): 4 = x  fun main(x): 4 = f(15)")?;
    over[9] = 33;
    let cases = [(table(wide)?, refused(25, 3)), (table(also_out_of_tail)?, refused(9, 4)), (over, refused(5, 0))];
    for (bytes, refusal) in &cases {
        for tags in [&[0][..], &[1], &[0x80], &[], &[0, 0]] {
            for arguments in [&[][..], &[1], &[1, 2]] {
                all_refuse(bytes, tags, arguments, *refusal)?;
            }
        }
    }
    Ok(())
}

/// Width bytes 0 and 32 are one width, 33 is none, and a constant of 15 is the last that has room in 4 bits.
#[test]
fn the_ends_of_widths() -> Outcome {
    let refusal = |bytes: &[u8]| Ok::<_, String>(start(bytes, &[0], &[9, 9], &mut Lent::zero())?.err());
    let mut bytes = table("fun main(x, y) = add(x, add(y, 15))")?;
    for (byte, value) in [(0, 33), (32, 33), (1, 1), (4, 1), (5, 1), (31, 33)] {
        bytes[5] = byte;
        // Constants of a function of 1 bit are 0 and 1.
        bytes[8 + 10 * 4 + 2] = if byte == 1 { 1 } else { 15 };
        let mut round = Round::started(bytes.clone(), vec![0], &[9, 9])?;
        let told = round.drive(&mut Random::new(433), 100)?;
        ensure(told == Ok((7, Ending::Answered(value))), || round.told(format!("width byte {byte}: {told:?}")))?;
    }
    for byte in 33..=255 {
        bytes[5] = byte;
        let found = refusal(&bytes)?;
        ensure(found == Some(Refusal { number: 5, place: Node(0) }), || format!("width byte {byte}: {found:?}"))?;
    }
    bytes[5] = 4;
    bytes[8 + 10 * 4 + 2] = 16;
    let found = refusal(&bytes)?;
    ensure(found == Some(Refusal { number: 25, place: Node(5) }), || format!("16 in 4 bits: {found:?}"))
}
