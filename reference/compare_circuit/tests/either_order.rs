//! Two steps of the proved circuit in either order, for every two nodes that have one. From a start it matters for
//! rivals alone who goes first. Each step is held against the reference too, with the whole state.

use std::mem::{replace, swap};

use compare_circuit::lent::Lent;
use compare_circuit::rounds::{some_table, some_tags, tree_of, Round};
use compare_circuit::seen::Seen;
use design::asm::assemble;
use design::circuit::{possible, Answer, State};
use design::crowds::{callers, chain};
use design::difference::{ensure, unrefused, Outcome};
use design::generator::accepted_sharing_of;
use design::kinds::Kinds;
use design::list::{tag_bytes, tags_of};
use design::pair_cases::{astray, rivals, same_node, DESIGNS};
use design::pair_kinds::{CAUSES, HARMLESS, HIGH, MOVES_BESIDE, PLACED, RIVALS};
use design::pairs::{every_pair, Moment, Pair};
use design::random::Random;
use design::states::{arguments, every_call, fill_past, holding_tags, tags};
use design::{examples, reach_cases, width_cases, Kind, Node, Tree};
use numbers::BUSY;

/// Schedules from a start: under the tags of the start, and under others at the two steps.
const SCHEDULES: usize = 8_000;
const OTHER_TAGS: usize = 1_500;

const STATES: &str = "states";
const EITHER_WAY: &str = "either way";
const RIVAL_PAIRS: &str = "rivals";

/// What the second of two rivals meets.
const TAGGED_WAITS: &str = "a rival meets 22";
const UNTAGGED_WAITS: &str = "a rival meets 23";

/// Under which tags the two steps are asked for.
const BY_LIST: &str = "the list as tags";
const BY_EVERY_CALL: &str = "every call tagged";
const BY_NONE: &str = "no call tagged";
const BY_OTHERS: &str = "others than at the start tagged";

/// A circuit that was started, as both have it.
struct Circuit {
    tree: Tree,
    round: Round,
    tags_of_start: Vec<u8>,
    /// How they are called; none where the two steps are asked for under others.
    tagging: Option<&'static str>,
    /// Calls that have begun mostly go on only where nothing else is possible, so that many of them meet.
    patient: bool,
}

impl Circuit {
    /// With the list as tags, or with every call tagged. In half of them the entries past N and F hold anything.
    fn started(random: &mut Random, bytes: Vec<u8>, arguments: &[u32]) -> Result<Circuit, String> {
        let tree = tree_of(&bytes)?;
        let (tagging, tags) = match random.once_in(3) {
            true => (BY_EVERY_CALL, tag_bytes(&tree, &every_call(&tree))),
            false => (BY_LIST, unrefused(tags_of(&bytes), &bytes)?),
        };
        let mut round = Round::started(bytes, tags.clone(), arguments)?;
        if random.once_in(2) {
            fill_past(random, &tree, &mut round.own);
            round.lent = Lent::of(&round.own);
        }
        Ok(Circuit { tree, round, tags_of_start: tags, tagging: Some(tagging), patient: random.once_in(2) })
    }

    /// With tags that hold the list, any tags on the way, and others than at the start at the two steps.
    fn with_others(random: &mut Random, bytes: Vec<u8>, arguments: &[u32]) -> Result<Circuit, String> {
        let tree = tree_of(&bytes)?;
        let (tags, on_the_way) = (holding_tags(random, &tree), some_tags(random, &bytes)?);
        let round = Round { tags: on_the_way, ..Round::started(bytes, tags.clone(), arguments)? };
        Ok(Circuit { tree, round, tags_of_start: tags, tagging: None, patient: random.once_in(2) })
    }

    /// A node to ask at next.
    fn some_node(&self, random: &mut Random) -> u16 {
        let is_call = |node: Node| matches!(self.tree.kind(node), Kind::Call(_));
        let has_begun = |node: Node| self.round.own.node(node).status == BUSY;
        let steps = possible(&self.tree, &self.round.tags, &self.round.own);
        let others: Vec<Node> = steps.filter(|node| !(is_call(*node) && has_begun(*node))).collect();
        match self.patient && !others.is_empty() && !random.once_in(6) {
            true => random.pick(&others).0,
            false => self.round.some_node(random),
        }
    }

    /// The tags of the two steps, and how they are called.
    fn tags_of_two(&self, random: &mut Random) -> (&'static str, Vec<u8>) {
        let begun = &self.tags_of_start;
        if let Some(tagging) = self.tagging {
            return (tagging, begun.clone());
        }
        let (none, every) = (vec![0; begun.len()], tag_bytes(&self.tree, &every_call(&self.tree)));
        let mut others = [none.clone(), every, tags(random, &self.tree)].to_vec();
        others.retain(|other| other != begun);
        match others.len() {
            // Without a call that may have a tag there are no others.
            0 => (BY_NONE, none),
            count => {
                let tags = others.swap_remove(random.below(count));
                (if tags == none { BY_NONE } else { BY_OTHERS }, tags)
            }
        }
    }
}

/// The pairs that were looked at, and what the steps said that led there.
#[derive(Default)]
struct Met {
    pairs: Kinds,
    steps: Seen,
}

impl Met {
    /// Every pair in the state in which a circuit stands; it stays there.
    fn look(&mut self, random: &mut Random, circuit: &mut Circuit) -> Outcome {
        let (tagging, tags) = circuit.tags_of_two(random);
        let Circuit { tree, round, .. } = circuit;
        let begun = (round.own.clone(), round.lent.clone());
        let moment = Moment { tree, tags: &tags, state: &begun.0 };
        let tags_before = replace(&mut round.tags, tags.clone());
        let step = |stand: &mut (State, Lent), node: Node| {
            exchange(round, stand);
            let answer = round.step(node.0);
            exchange(round, stand);
            answer
        };
        self.pairs.note(vec![STATES]);
        let looked = every_pair(&moment, &begun, step, |pair| {
            self.pairs.note(vec![tagging]);
            self.pairs.note(outcome(pair));
            self.pairs.note(moment.kinds(pair.nodes));
            pair.settled(&tags)
        });
        looked.map_err(|message| round.told(message))?;
        round.tags = tags_before;
        Ok(())
    }

    /// Steps in any order, refused ones too, up to the answer; looks at the state before one step in so many.
    fn follow(&mut self, random: &mut Random, mut circuit: Circuit, asks: usize, seldom: usize) -> Outcome {
        for _ in 0..asks {
            if random.once_in(seldom) {
                self.look(random, &mut circuit)?;
            }
            let node = circuit.some_node(random);
            let answer = circuit.round.step(node)?;
            self.steps.answer(answer);
            if matches!(answer, Answer::Answered(_)) {
                // Nothing has a step any more.
                return self.look(random, &mut circuit);
            }
        }
        Ok(())
    }

    /// No pair from a start is of these kinds.
    fn none_astray(&self) -> Outcome {
        self.pairs.never(&[&CAUSES[..], &HARMLESS].concat())
    }
}

fn exchange(round: &mut Round, (own, lent): &mut (State, Lent)) {
    swap(&mut round.own, own);
    swap(&mut round.lent, lent);
}

fn outcome<S>(pair: &Pair<S>) -> Vec<&'static str> {
    let seconds = pair.orders.iter().map(|order| order.answers[1]);
    let waits = seconds.filter_map(|answer| match answer {
        Answer::Refused(refusal) if refusal.number == 23 => Some(UNTAGGED_WAITS),
        Answer::Refused(_) => Some(TAGGED_WAITS),
        _ => None,
    });
    waits.chain([if pair.rivals { RIVAL_PAIRS } else { EITHER_WAY }]).collect()
}

/// Often one in which many calls share few functions, so that they meet.
fn crowded_table(random: &mut Random) -> Vec<u8> {
    let nodes = random.within(12, 90);
    match random.once_in(2) {
        true => accepted_sharing_of(random, nodes),
        false => some_table(random),
    }
}

/// How a circuit of a table is started on main's arguments.
type Begin = fn(&mut Random, Vec<u8>, &[u32]) -> Result<Circuit, String>;

/// What so many schedules meet, each of a table of its own that is started the given way.
fn followed(seed: u64, schedules: usize, begin: Begin) -> Result<Met, String> {
    let (mut random, mut met) = (Random::new(seed), Met::default());
    for _ in 0..schedules {
        let bytes = crowded_table(&mut random);
        let arguments = arguments(&mut random, &tree_of(&bytes)?);
        let circuit = begin(&mut random, bytes, &arguments)?;
        let asks = random.within(10, 150);
        met.follow(&mut random, circuit, asks, 8)?;
    }
    Ok(met)
}

#[test]
fn random_designs() -> Outcome {
    let met = followed(461, SCHEDULES, Circuit::started)?;
    met.pairs.often(&[&MOVES_BESIDE[..], &PLACED, &RIVALS, &[HIGH]].concat(), 15)?;
    let wanted = [(STATES, 45_000), (EITHER_WAY, 200_000), (RIVAL_PAIRS, 2_500), (TAGGED_WAITS, 5_000)];
    met.pairs.at_least(&wanted)?;
    met.pairs.at_least(&[(BY_LIST, 120_000), (BY_EVERY_CALL, 60_000), (RIVALS[1], 350)])?;
    met.pairs.never(&[UNTAGGED_WAITS])?;
    met.none_astray()?;
    met.steps.often("steps", &[("taken", 250_000), ("answered", 2_000)])?;
    met.steps.refused_often("steps", [12, 21, 22], 3_000)
}

/// A table, main's arguments unless any will do, and how often to start it.
type Named = (Vec<u8>, Option<Vec<u32>>, usize);

/// Designs that were worked out, the examples among them.
fn named_designs() -> Result<Vec<Named>, String> {
    let mut found = Vec::new();
    let mut add = |text: &str, arguments: &[u32], times| {
        let bytes = assemble(text).map_err(|error| format!("{text}: {error:?}"))?;
        found.push((bytes, Some(arguments.to_vec()), times));
        Ok::<_, String>(())
    };
    DESIGNS.iter().try_for_each(|(text, arguments)| add(text, arguments, 30))?;
    width_cases::CASES.iter().try_for_each(|(text, arguments, ..)| add(text, arguments, 2))?;
    found.extend(reach_cases::CASES.map(|case| (case.bytes(), None, 3)));
    let examples = examples::tables()?.into_iter().filter(|bytes| Tree::read(bytes).is_ok());
    found.extend(examples.map(|bytes| (bytes, None, 3)));
    Ok(found)
}

#[test]
fn designs_by_name() -> Outcome {
    let (mut random, mut met) = (Random::new(462), Met::default());
    for (bytes, given, times) in named_designs()? {
        let tree = tree_of(&bytes)?;
        let (asks, seldom) = if tree.node_count() > 60 { (1500, 100) } else { (250, 2) };
        for _ in 0..times {
            let arguments = given.clone().unwrap_or_else(|| arguments(&mut random, &tree));
            let circuit = Circuit::started(&mut random, bytes.clone(), &arguments)?;
            met.follow(&mut random, circuit, asks, seldom)?;
        }
    }
    met.pairs.often(&[&MOVES_BESIDE[..], &PLACED, &RIVALS, &[HIGH]].concat(), 3)?;
    met.pairs.at_least(&[(EITHER_WAY, 4_500), (RIVAL_PAIRS, 500)])?;
    met.pairs.never(&[UNTAGGED_WAITS])?;
    met.none_astray()
}

/// Very many calls under way at once: in one state there are tens of thousands of pairs.
#[test]
fn crowds() -> Outcome {
    let (mut random, mut met) = (Random::new(463), Met::default());
    for (bytes, arguments) in [(callers(), &[2][..]), (chain(), &[2, 9])] {
        let mut circuit = Circuit::started(&mut random, bytes, arguments)?;
        circuit.patient = true;
        met.follow(&mut random, circuit, 1000, 250)?;
    }
    met.pairs.often(&[EITHER_WAY, RIVAL_PAIRS, RIVALS[2], HIGH], 5_000)?;
    met.pairs.never(&[UNTAGGED_WAITS])?;
    met.none_astray()
}

/// Tags tell only by which number a rival has to wait.
#[test]
fn under_other_tags() -> Outcome {
    let met = followed(464, OTHER_TAGS, Circuit::with_others)?;
    met.pairs.often(&[EITHER_WAY], 40_000)?;
    met.pairs.at_least(&[(BY_NONE, 25_000), (BY_OTHERS, 18_000)])?;
    met.pairs.at_least(&[(RIVAL_PAIRS, 600), (UNTAGGED_WAITS, 600), (TAGGED_WAITS, 600)])?;
    met.none_astray()
}

/// Left out what the rule asks for: each named state as it was worked out, in both orders.
#[test]
fn where_the_order_matters() -> Outcome {
    for case in same_node().into_iter().chain(rivals()).chain(astray()) {
        let (bytes, tags) = case.table();
        let [one, other] = case.nodes;
        let mut ends = Vec::new();
        for (nodes, wanted) in [[one, other], [other, one]].into_iter().zip(case.answers) {
            let mut round = Round::standing(bytes.clone(), tags.clone(), case.before.clone())?;
            let answers = [round.step(nodes[0])?, round.step(nodes[1])?];
            ensure(answers == wanted, || round.told(format!("{}: {answers:?}, wanted {wanted:?}", case.name)))?;
            ends.push(round.lent);
        }
        ensure((ends[0] != ends[1]) == case.apart.is_some(), || format!("{}: the ends", case.name))?;
    }
    Ok(())
}
