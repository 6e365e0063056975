//! Two steps that are possible in one state, taken in both orders.

use crate::circuit::{decide, possible, Answer, Change, State};
use crate::difference::{ensure, Outcome};
use crate::list::is_tagged;
use crate::table::{Function, Node, Refusal};
use crate::tree::Tree;

/// A state in order, and the table and tags with which steps are asked for in it.
#[derive(Clone, Copy)]
pub struct Moment<'a> {
    pub tree: &'a Tree,
    pub tags: &'a [u8],
    pub state: &'a State,
}

/// Two steps one after the other: what they answer, and where the first and both of them lead.
pub struct Order<'a, S> {
    pub answers: [Answer; 2],
    pub between: &'a S,
    pub end: S,
}

/// Two different nodes that both have a step, the lower one first, and both orders.
pub struct Pair<'a, S> {
    pub nodes: [Node; 2],
    pub rivals: bool,
    pub orders: [Order<'a, S>; 2],
}

impl<S: PartialEq> Pair<'_, S> {
    /// All four steps are taken, none of them with main's answer, and both orders have the same end.
    pub fn either_way(&self) -> bool {
        let [one, other] = &self.orders;
        one.end == other.end && self.orders.iter().all(|order| order.answers == [Answer::Taken; 2])
    }

    /// Whichever goes first is taken; the other then has to wait, with a tag by 22 and without by 23.
    pub fn first_come(&self, tags: &[u8]) -> bool {
        let [one, other] = self.nodes;
        self.orders.iter().zip([other, one]).all(|(order, second)| {
            let number = if is_tagged(tags, second) { 22 } else { 23 };
            let waits = Answer::Refused(Refusal { number, place: second });
            order.answers == [Answer::Taken, waits] && order.end == *order.between
        })
    }

    /// What is to be of any pair in a state that a start leads to.
    pub fn settled(&self, tags: &[u8]) -> Outcome {
        let holds = if self.rivals { self.first_come(tags) } else { self.either_way() };
        ensure(holds, || {
            let answers = self.orders.each_ref().map(|order| order.answers);
            let same_end = self.orders[0].end == self.orders[1].end;
            format!("{:?}, rivals: {}, answered {answers:?}, same end: {same_end}", self.nodes, self.rivals)
        })
    }
}

/// Takes every two steps that are possible at this moment in both orders, and hands each pair on. How a step is asked
/// for is left open, so that others than the reference can be asked; that they find the same steps is looked at.
pub fn every_pair<S: Clone + PartialEq>(
    moment: &Moment,
    begun: &S,
    mut step: impl FnMut(&mut S, Node) -> Result<Answer, String>,
    mut each: impl FnMut(&Pair<S>) -> Outcome,
) -> Outcome {
    let mut firsts = Vec::new();
    for node in moment.tree.nodes() {
        let mut after = begun.clone();
        match step(&mut after, node)? {
            Answer::Refused(_) => ensure(after == *begun, || format!("{node:?} was refused and changed the state"))?,
            answer => firsts.push((node, answer, after)),
        }
    }
    let nodes: Vec<Node> = firsts.iter().map(|(node, ..)| *node).collect();
    let wanted: Vec<Node> = possible(moment.tree, moment.tags, moment.state).collect();
    ensure(nodes == wanted, || format!("steps at {nodes:?}, wanted {wanted:?}"))?;
    for (at, (one, its_answer, after_one)) in firsts.iter().enumerate() {
        for (other, others_answer, after_other) in &firsts[at + 1..] {
            let mut order = |first: Answer, between, second: Node| {
                let mut end = S::clone(between);
                let answers = [first, step(&mut end, second)?];
                Ok::<_, String>(Order { answers, between, end })
            };
            let orders = [order(*its_answer, after_one, *other)?, order(*others_answer, after_other, *one)?];
            each(&Pair { nodes: [*one, *other], rivals: moment.rivals(*one, *other), orders })?;
        }
    }
    Ok(())
}

impl Moment<'_> {
    /// What a step at this node would do, if there is one.
    pub(crate) fn change(&self, node: Node) -> Option<Change> {
        decide(self.tree, self.tags, self.state, node).ok()
    }

    /// The resource that a step at this node enters. A self call enters none: it is inside already.
    pub fn enters(&self, node: Node) -> Option<Function> {
        match self.change(node) {
            Some(Change::Enter(callee)) => Some(callee),
            _ => None,
        }
    }

    /// Whether the steps at these nodes both enter one resource.
    pub fn rivals(&self, one: Node, other: Node) -> bool {
        let entered = self.enters(one);
        entered.is_some() && entered == self.enters(other)
    }
}
