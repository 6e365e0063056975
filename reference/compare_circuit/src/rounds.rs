//! One design with its tags, the reference's state and the proved code's beside it. Each round asks both and compares.

use std::fmt::Debug;

use design::circuit::{self, check_state, first, possible, step_with, Answer, Ending, State, Steps};
use design::difference::{ensure, shown, unrefused, Outcome};
use design::generator::{accepted, accepted_of, accepted_sharing, accepted_sharing_of};
use design::kinds::Kinds;
use design::list::{missing, tags_of};
use design::random::Random;
use design::states::{any_state, arguments, damage_state, holding_tags, tags};
use design::width_kinds::{is_narrow, width_kinds};
use design::{Node, Refusal, Tree};

use crate::lent::Lent;
use crate::seen::Seen;
use crate::traces::traced;

/// How tags stand to the arbiter list.
pub const EMPTY_LIST: &str = "the list is empty";
pub const LIST_HELD: &str = "tags hold the list";
pub const LIST_MISSED: &str = "tags miss some of the list";

/// A design with a function of fewer bits than a value has.
pub const NARROW: &str = "narrow";

/// A table, mostly of a small design: it gets through its steps. In half of them something is on the list.
pub fn some_table(random: &mut Random) -> Vec<u8> {
    let nodes = match random.below(40) {
        0 => return accepted(random),
        1 => return accepted_sharing(random),
        2..=6 => random.within(41, 120),
        // Main reaches most of a design, so that few but the smallest are through after some steps.
        7..=14 => random.within(1, 8),
        _ => random.within(1, 40),
    };
    match random.once_in(2) {
        true => with_a_list(random, nodes.max(12)),
        false => accepted_of(random, nodes),
    }
}

/// Chance alone seldom makes calls meet in a small design, so it is tried several times.
fn with_a_list(random: &mut Random, nodes: usize) -> Vec<u8> {
    let is_empty = |bytes: &[u8]| tags_of(bytes).is_ok_and(|tags| tags.iter().all(|byte| *byte == 0));
    let mut bytes = accepted_sharing_of(random, nodes);
    for _ in 0..6 {
        if !is_empty(&bytes) {
            break;
        }
        bytes = accepted_sharing_of(random, nodes);
    }
    bytes
}

pub fn tree_of(bytes: &[u8]) -> Result<Tree, String> {
    unrefused(Tree::read(bytes), bytes)
}

/// The arbiter list in half of the cases, else tags that hold it or not.
pub fn some_tags(random: &mut Random, bytes: &[u8]) -> Result<Vec<u8>, String> {
    match random.once_in(2) {
        true => unrefused(tags_of(bytes), bytes),
        false => Ok(tags(random, &tree_of(bytes)?)),
    }
}

pub struct Round {
    pub bytes: Vec<u8>,
    pub tags: Vec<u8>,
    pub tree: Tree,
    pub own: State,
    pub lent: Lent,
    /// What the steps that were asked for one by one did with widths.
    pub widths: Kinds,
}

impl Round {
    /// From a start, or from any state, which 24 may turn back.
    pub fn some(random: &mut Random, seen: &mut Seen) -> Result<Round, String> {
        let bytes = some_table(random);
        let tree = tree_of(&bytes)?;
        let tags = some_tags(random, &bytes)?;
        let round = if random.once_in(2) {
            seen.note("from a start");
            let arguments = arguments(random, &tree);
            Round::begun(random, bytes, tags, &arguments)?
        } else {
            seen.note("from any state");
            let mut state = any_state(random, &tree);
            if random.once_in(8) {
                damage_state(random, &tree, &mut state);
            }
            Round::standing(bytes, tags, state)?
        };
        seen.note(round.tagging()?);
        seen.note_if(NARROW, is_narrow(&round.tree));
        Ok(round)
    }

    /// From a start with these arguments, and then under these tags, which need not hold the list. The start has tags
    /// that do: mostly the same, if they do.
    pub fn begun(random: &mut Random, bytes: Vec<u8>, tags: Vec<u8>, arguments: &[u32]) -> Result<Round, String> {
        let tree = tree_of(&bytes)?;
        let of_start = match missing(&tree, &tags) {
            None if !random.once_in(4) => tags.clone(),
            _ => holding_tags(random, &tree),
        };
        Ok(Round { tags, ..Round::started(bytes, of_start, arguments)? })
    }

    /// From a start with these tags and arguments, which has to be possible.
    pub fn started(bytes: Vec<u8>, tags: Vec<u8>, arguments: &[u32]) -> Result<Round, String> {
        let mut before = State::zero();
        before.nodes.fill(circuit::NodeState { status: 9, second: true, value: 7 });
        before.functions.fill(circuit::FunctionState { registers: [5; 8], occupant: Node(600) });
        let mut round = Round::standing(bytes, tags.clone(), before)?;
        let told = round.start(&tags, arguments)?;
        round.expect(told.is_ok(), || format!("start with {arguments:?} said {told:?}"))?;
        Ok(round)
    }

    /// From any state.
    pub fn standing(bytes: Vec<u8>, tags: Vec<u8>, own: State) -> Result<Round, String> {
        let tree = tree_of(&bytes)?;
        let lent = Lent::of(&own);
        Ok(Round { bytes, tags, tree, own, lent, widths: Kinds::default() })
    }

    fn expect(&self, holds: bool, otherwise: impl FnOnce() -> String) -> Outcome {
        ensure(holds, || self.told(otherwise()))
    }

    /// A difference with all that is needed to see it again.
    pub fn told(&self, message: String) -> String {
        let (table, tags) = (shown(&self.bytes), shown(&self.tags));
        format!("{message}\ntable {table}\ntags {tags}\nreference's state {}", standing(&self.tree, &self.own))
    }

    /// How the tags stand to the arbiter list.
    pub fn tagging(&self) -> Result<&'static str, String> {
        let list = unrefused(tags_of(&self.bytes), &self.bytes)?;
        let holds = list.iter().zip(&self.tags).all(|(listed, tagged)| listed & !tagged == 0);
        Ok(match holds {
            _ if list.iter().all(|byte| *byte == 0) => EMPTY_LIST,
            true => LIST_HELD,
            false => LIST_MISSED,
        })
    }

    /// The lowest node with a step, in a state that 24 lets pass.
    pub fn lowest_step(&self) -> Option<Node> {
        first(&self.tree, &self.tags, &self.own)
    }

    /// A node to ask at: mostly one with a step, often a call that may have to wait or another node,
    /// now and then a number that is none.
    pub fn some_node(&self, random: &mut Random) -> u16 {
        let fine = check_state(&self.tree, &self.own).is_ok();
        match random.below(20) {
            0..=11 if fine => {
                let nodes: Vec<Node> = possible(&self.tree, &self.tags, &self.own).collect();
                if nodes.is_empty() {
                    random.within(1, self.tree.node_count()) as u16
                } else {
                    random.pick(&nodes).0
                }
            }
            12..=14 => {
                let waiting = |node: &Node| {
                    let entry = self.own.node(*node);
                    self.tree.other_callee(*node).is_some() && entry.status == numbers::BUSY && !entry.second
                };
                let nodes: Vec<Node> = self.tree.nodes().filter(waiting).collect();
                nodes.first().map_or(1, |_| random.pick(&nodes).0)
            }
            15 => {
                let any = random.number() as u16;
                random.pick(&[0, self.tree.node_count() as u16 + 1, 512, 513, u16::MAX, any])
            }
            _ => random.within(1, self.tree.node_count()) as u16,
        }
    }

    /// What both said, if it is the same and so are their states after it; a difference is told with the state before.
    fn agreed<T: PartialEq + Debug>(
        &mut self,
        before: State,
        found: T,
        wanted: T,
        what: impl FnOnce() -> String,
    ) -> Result<T, String> {
        let fine = self.lent.same_as(&self.own);
        if found == wanted && fine.is_ok() {
            return Ok(wanted);
        }
        self.own = before;
        Err(self.told(format!("{} said {found:?}, wanted {wanted:?}; {fine:?}", what())))
    }

    /// Asks both for a start with these tags and compares; a refused one keeps the state, whatever it is.
    pub fn start(&mut self, tags: &[u8], arguments: &[u32]) -> Result<Result<(), Refusal>, String> {
        let before = self.own.clone();
        let wanted = circuit::start(&self.bytes, tags, arguments, &mut self.own);
        self.expect(wanted.is_ok() || self.own == before, || format!("the reference changed with {wanted:?}"))?;
        let found = crate::start(&self.bytes, tags, arguments, &mut self.lent)?;
        self.agreed(before, found, wanted, || format!("start with tags {} and {arguments:?}", shown(tags)))
    }

    /// Asks both for a step and compares answers and states.
    pub fn step(&mut self, node: u16) -> Result<Answer, String> {
        let before = self.own.clone();
        let wanted = step_with(&self.tree, &self.tags, &mut self.own, node);
        if !matches!(wanted, Answer::Refused(_)) {
            self.widths.note(width_kinds(&self.tree, &before, Node(node)));
        }
        let found = crate::step(&self.bytes, &self.tags, &mut self.lent, node)?;
        self.agreed(before, found, wanted, || format!("step at {node}"))
    }

    /// The node that the query names.
    pub fn query(&self) -> Result<Result<Option<Node>, Refusal>, String> {
        let found = crate::query(&self.bytes, &self.tags, &self.lent).map_err(|message| self.told(message))?;
        let wanted = circuit::query(&self.bytes, &self.tags, &self.own);
        self.expect(found == wanted, || format!("query said {found:?}, wanted {wanted:?}"))?;
        Ok(wanted)
    }

    /// The run over a list of nodes. Its count holds anything before.
    pub fn run(&mut self, random: &mut Random, nodes: &[u16]) -> Result<Result<Steps, Refusal>, String> {
        let before = self.own.clone();
        let wanted = circuit::run_list(&self.bytes, &self.tags, &mut self.own, nodes);
        let noise = random.number() as usize;
        let mut count = noise;
        let refusal = crate::run(&self.bytes, &self.tags, &mut self.lent, nodes, &mut count)?;
        // What is refused before any step is asked for keeps the count, a step that is refused doesn't.
        let told = wanted.unwrap_or_else(|refusal| (noise, Some(refusal)));
        self.agreed(before, (count, refusal), told, || format!("run over {nodes:?}"))?;
        Ok(wanted)
    }

    /// The run on a budget. Its count holds anything before.
    pub fn drive(&mut self, random: &mut Random, budget: u32) -> Result<Result<(u32, Ending), Refusal>, String> {
        let before = self.own.clone();
        let wanted = circuit::run_budget(&self.bytes, &self.tags, &mut self.own, budget);
        let noise = random.number() as u32;
        let mut count = noise;
        let ending = crate::drive(&self.bytes, &self.tags, &mut self.lent, budget, &mut count)?;
        // A refusal keeps the count.
        let told = wanted.map_or_else(|refusal| (noise, Err(refusal)), |(taken, ending)| (taken, Ok(ending)));
        self.agreed(before, (count, ending), told, || format!("drive on {budget}")).map(|_| wanted)
    }

    /// The nodes of the run on a budget, asked for one by one; both states stay as they are.
    pub fn trace(&self, budget: u32) -> Result<Result<(Vec<Node>, Ending), Refusal>, String> {
        let (mut own, mut lent) = (self.own.clone(), self.lent.clone());
        let wanted = circuit::run_traced(&self.bytes, &self.tags, &mut own, budget);
        let found = traced(&self.bytes, &self.tags, &mut lent, budget).map_err(|message| self.told(message))?;
        self.expect(found == wanted, || format!("the steps on {budget} are {found:?}, wanted {wanted:?}"))?;
        let same = lent.same_as(&own);
        same.map_err(|difference| self.told(format!("after {wanted:?} one by one: {difference}")))?;
        Ok(wanted)
    }
}

/// A state's entries up to N and F, short.
pub fn standing(tree: &Tree, state: &State) -> String {
    let mut text = String::new();
    for node in tree.nodes() {
        let entry = state.node(node);
        let flag = if entry.second { "s" } else { "" };
        text += &format!(" {}:{}{flag}={}", node.0, entry.status, entry.value);
    }
    for function in tree.functions() {
        let entry = state.function(function);
        text += &format!(" f{}:{}{:?}", function.0, entry.occupant.0, entry.registers);
    }
    text
}
