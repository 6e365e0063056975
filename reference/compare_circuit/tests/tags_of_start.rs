//! What a start says of the tags is all that is needed: under the tags of a start no step ever meets 23. Under others
//! steps do, and so they do in states that no start leads to.

use compare_circuit::rounds::{some_table, tree_of, Round, EMPTY_LIST, LIST_HELD};
use compare_circuit::seen::Seen;
use design::circuit::{Answer, State};
use design::difference::{ensure, Outcome};
use design::generator::accepted_sharing_of;
use design::list::{is_tagged, tag_bytes};
use design::random::Random;
use design::start_cases::waits;
use design::states::{any_state, arguments, every_call, holding_tags, missing_tags, tags};
use design::towers::{any_comb, any_deep, any_tower};
use design::{Node, Refusal, Tree};

/// Starts that are tried, and steps that are asked for after each that is possible.
const STARTS: usize = 12_000;
const ASKS: usize = 150;

/// Tags in order, which hold the list or not: the start is to tell.
fn any_tags(random: &mut Random, tree: &Tree) -> Vec<u8> {
    match random.below(4) {
        0 => tags(random, tree),
        1 => missing_tags(random, tree).unwrap_or_else(|| tags(random, tree)),
        _ => holding_tags(random, tree),
    }
}

/// What a step under these tags comes to, both states staying as they are.
fn tried(round: &mut Round, tags: &[u8], node: u16) -> Result<Answer, String> {
    let before = (round.own.clone(), round.lent.clone());
    let answer = under(round, tags, node);
    (round.own, round.lent) = before;
    answer
}

/// A step under these tags; the round keeps its own for the next.
fn under(round: &mut Round, tags: &[u8], node: u16) -> Result<Answer, String> {
    let own = std::mem::replace(&mut round.tags, tags.to_vec());
    let answer = round.step(node);
    round.tags = own;
    answer
}

fn is_refused(answer: Answer, number: u16) -> bool {
    matches!(answer, Answer::Refused(refusal) if refusal.number == number)
}

/// A circuit that was started with its tags.
struct Started {
    round: Round,
    arguments: Vec<u32>,
    /// Other tags for its steps, holding the list or not, and such as miss some of it.
    others: Vec<Vec<u8>>,
    missing: Vec<Vec<u8>>,
}

impl Started {
    /// A start with any tags from any state, which is refused 26 or possible.
    fn some(random: &mut Random, bytes: Vec<u8>) -> Result<Option<Started>, String> {
        let tree = tree_of(&bytes)?;
        let (tags, arguments) = (any_tags(random, &tree), arguments(random, &tree));
        let before = any_state(random, &tree);
        let mut round = Round::standing(bytes, tags.clone(), before)?;
        if let Err(refusal) = round.start(&tags, &arguments)? {
            ensure(refusal.number == 26, || round.told(format!("a start said {refusal:?}")))?;
            return Ok(None);
        }
        let missing: Vec<Vec<u8>> = (0..3).filter_map(|_| missing_tags(random, &tree)).collect();
        let mut others = missing.clone();
        others.extend((0..3).map(|_| any_tags(random, &tree)));
        Ok(Some(Started { round, arguments, others, missing }))
    }

    /// Another start on the way, with tags that miss some of the list: it is refused, and what is under way stays.
    fn refused_on_the_way(&mut self, random: &mut Random, seen: &mut Seen) -> Outcome {
        if self.missing.is_empty() {
            return Ok(());
        }
        let tags = &self.missing[random.below(self.missing.len())];
        let told = self.round.start(tags, &self.arguments)?;
        seen.note("a start refused on the way");
        ensure(matches!(told, Err(Refusal { number: 26, .. })), || self.round.told(format!("a start said {told:?}")))
    }

    /// A step under the tags of the start, which never meets 23. Where it has to wait, it does so under others too, by
    /// 22 or by 23 as they have it.
    fn own_step(&mut self, seen: &mut Seen, node: u16) -> Result<Answer, String> {
        let no_tags = vec![0; self.round.tags.len()];
        let without = tried(&mut self.round, &no_tags, node)?;
        let answer = self.round.step(node)?;
        ensure(!is_refused(answer, 23), || self.round.told(format!("{answer:?} under the tags of the start")))?;
        let waits = is_refused(answer, 22);
        let fits = if waits { is_refused(without, 23) } else { without == answer };
        ensure(fits, || self.round.told(format!("{answer:?} at {node}, without tags {without:?}")))?;
        seen.note_if("23 without any tag", waits);
        if waits {
            for tags in &self.others {
                let (number, kind) = match is_tagged(tags, Node(node)) {
                    true => (22, "22 under others"),
                    false => (23, "23 under others"),
                };
                let told = tried(&mut self.round, tags, node)?;
                ensure(is_refused(told, number), || self.round.told(format!("{told:?} at {node}, wanted {number}")))?;
                seen.note(kind);
            }
        }
        Ok(answer)
    }

    /// Steps in any order, refused ones too. Most have the tags of the start; some have others, and lead on as well.
    fn steps(&mut self, random: &mut Random, seen: &mut Seen) -> Outcome {
        let mut asks = random.within(10, ASKS);
        while asks > 0 {
            asks -= 1;
            if random.once_in(30) {
                self.refused_on_the_way(random, seen)?;
            }
            let node = self.round.some_node(random);
            let answer = match random.once_in(4) {
                true => {
                    let tags = &self.others[random.below(self.others.len())];
                    let answer = under(&mut self.round, tags, node)?;
                    seen.note_if("taken under others", answer == Answer::Taken);
                    answer
                }
                false => {
                    let answer = self.own_step(seen, node)?;
                    seen.answer(answer);
                    answer
                }
            };
            if matches!(answer, Answer::Answered(_)) {
                asks = asks.min(3);
            }
        }
        Ok(())
    }
}

#[test]
fn no_step_under_the_tags_of_a_start_meets_23() -> Outcome {
    let (mut random, mut seen) = (Random::new(471), Seen::default());
    for round in 0..STARTS {
        let bytes = match round % 500 {
            0 => any_tower(&mut random),
            1 => any_deep(&mut random),
            2 => any_comb(&mut random),
            // Many calls share few functions here.
            3..=250 => {
                let nodes = random.within(20, 90);
                accepted_sharing_of(&mut random, nodes)
            }
            _ => some_table(&mut random),
        };
        let Some(mut started) = Started::some(&mut random, bytes)? else {
            seen.note("not started");
            continue;
        };
        seen.note("started");
        seen.note(started.round.tagging()?);
        started.steps(&mut random, &mut seen)?;
    }
    let wanted = [
        ("started", STARTS / 2),
        ("not started", STARTS / 10),
        (EMPTY_LIST, STARTS / 3),
        (LIST_HELD, STARTS / 5),
        ("taken", 200_000),
        ("answered", 2_000),
        ("23 without any tag", 4_000),
        ("taken under others", 60_000),
        ("22 under others", 8_000),
        ("23 under others", 8_000),
        ("a start refused on the way", 4_000),
    ];
    seen.often("tags of a start", &wanted)?;
    seen.refused_often("tags of a start", [12, 20, 21, 22], 4_000)
}

/// The states that were worked out: with the list tagged and more, a call without a tag has to wait.
#[test]
fn states_in_which_23_remains() -> Outcome {
    let mut random = Random::new(472);
    for case in waits() {
        let (bytes, tags) = case.table();
        let refused = |number| Refusal { number, place: Node(case.node) };
        let mut round = Round::standing(bytes, tags.clone(), case.before.clone())?;
        let answer = round.step(case.node)?;
        ensure(answer == Answer::Refused(refused(23)), || round.told(format!("{}: {answer:?}", case.name)))?;
        let told = round.run(&mut random, &[case.node])?;
        ensure(told == Ok((0, Some(refused(23)))), || round.told(format!("{}: {told:?}", case.name)))?;
        let every = tag_bytes(&round.tree, &every_call(&round.tree));
        let answer = tried(&mut round, &every, case.node)?;
        ensure(answer == Answer::Refused(refused(22)), || round.told(format!("{}: {answer:?}", case.name)))?;
        round.query()?.map_err(|refusal| format!("{}: {refusal:?}", case.name))?;
        let mut driven = Round::standing(round.bytes.clone(), tags.clone(), case.before.clone())?;
        driven.drive(&mut random, 20)?.map_err(|refusal| format!("{}: {refusal:?}", case.name))?;
        // A start is possible with these tags, and makes another state of it.
        let arguments = vec![0; round.tree.parameters(round.tree.main())];
        let told = round.start(&tags, &arguments)?;
        ensure(told.is_ok() && round.own != case.before, || round.told(format!("{}: {told:?}", case.name)))?;
        ensure(round.own != State::zero(), || round.told(format!("{}: nothing is open", case.name)))?;
    }
    Ok(())
}
