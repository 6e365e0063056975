//! Designs at the ends of what a table can hold: towers of functions, each calling the one below it, and deep chains.

use numbers::{ADD, BESIDE, DOUBLE, HALVE, LOW_BIT};
use numbers::{CALL, CONSTANT, IF, LET, PARAMETER, PRIMITIVE};
use numbers::{MOST_FUNCTIONS, MOST_NODES};

use crate::draft::{Draft, Head};
use crate::generator::numbered;
use crate::random::Random;
use crate::widths;

const CALLS: usize = 8;

/// Adds a node as the next child of another, which comes before it.
fn add_below(draft: &mut Draft, holder: usize, kind: u8, extra: u8, word: u32) -> usize {
    let node = draft.add(kind, extra, word);
    draft.items[holder].children.push(node);
    node
}

/// 32 functions of 512 nodes, each calling the one below it eight times beside each other.
pub fn tower_beside() -> Vec<u8> {
    // With this many arguments the calls fill the table to its last node.
    full_tower(
        |function| usize::from(function > 2),
        |draft, callee, arguments| {
            let root = draft.add(PRIMITIVE, BESIDE, 0);
            for _ in 0..CALLS {
                let call = add_below(draft, root, CALL, 0, callee as u32);
                fill(draft, call, arguments);
            }
            root
        },
    )
}

/// 32 functions of 512 nodes, each calling the one below it eight times, the calls being arguments of each other.
pub fn tower_of_arguments() -> Vec<u8> {
    full_tower(
        |function| 1 + usize::from(function > 2),
        |draft, callee, arguments| {
            let calls: Vec<usize> = (0..CALLS).map(|_| draft.add(CALL, 0, callee as u32)).collect();
            for (i, call) in calls.iter().enumerate().skip(1) {
                let holder = calls[(i - 1) / arguments];
                draft.items[holder].children.push(*call);
            }
            for call in &calls {
                fill(draft, *call, arguments);
            }
            calls[0]
        },
    )
}

/// Gives a call constants for the arguments it doesn't have yet.
fn fill(draft: &mut Draft, call: usize, arguments: usize) {
    while draft.items[call].children.len() < arguments {
        add_below(draft, call, CONSTANT, 0, 1);
    }
}

fn full_tower(parameters: impl Fn(usize) -> usize, level: impl Fn(&mut Draft, usize, usize) -> usize) -> Vec<u8> {
    let mut draft = Draft::default();
    for function in 1..=MOST_FUNCTIONS {
        let root = match function {
            1 => draft.add(CONSTANT, 0, 1),
            _ => level(&mut draft, function - 1, parameters(function - 1)),
        };
        draft.functions.push(Head::new(parameters(function), root));
    }
    draft.bytes()
}

/// A tower in which each function calls the one below it up to eight times, in any arrangement.
pub fn any_tower(random: &mut Random) -> Vec<u8> {
    let levels = if random.once_in(4) { random.within(2, MOST_FUNCTIONS) } else { MOST_FUNCTIONS };
    // As many calls as fit, and then few arguments, so that more of them do.
    let full = random.once_in(2);
    let mut draft = Draft::default();
    for function in 1..=levels {
        let parameters = if full { random.below(8) / 7 } else { random.below(3) };
        let root = match function {
            1 => draft.add(CONSTANT, 0, 7),
            _ => {
                let below = usize::from(draft.functions[function - 2].parameters);
                let share = (MOST_NODES - draft.items.len()) / (levels + 1 - function);
                let self_call = if parameters == 0 { 0 } else { 4 + parameters };
                // A call takes its own node, its arguments and at most one holder.
                let most = CALLS.min((share - self_call) / (2 + below));
                let calls = if full { most } else { random.within(1, most) };
                Level { random, draft: &mut draft, own: parameters, below, callee: function - 1 }.root(calls)
            }
        };
        draft.functions.push(Head::new(parameters, root));
    }
    widths::give(random, &mut draft);
    numbered(random, &draft)
}

/// One function of a tower.
struct Level<'a> {
    random: &'a mut Random,
    draft: &'a mut Draft,
    /// Parameters of this function and of the one below it.
    own: usize,
    below: usize,
    callee: usize,
}

impl Level<'_> {
    /// A body with this many calls; now and then some of them are in the arguments of a self call.
    fn root(&mut self, calls: usize) -> usize {
        if self.own == 0 || !self.random.once_in(4) {
            return self.part(calls);
        }
        let node = self.draft.add(IF, 0, 0);
        let condition = self.draft.add(PARAMETER, 0, 0);
        let again = self.draft.add(CALL, 0, self.callee as u32 + 1);
        let inside = self.random.below(calls + 1);
        self.draft.items[again].children = self.parts(inside, self.own);
        let last = self.part(calls - inside);
        self.draft.items[node].children = vec![condition, again, last];
        node
    }

    /// Parts that together have this many calls; some may have none.
    fn parts(&mut self, calls: usize, count: usize) -> Vec<usize> {
        let sizes = self.random.split(calls + count, count, false);
        sizes.into_iter().map(|size| self.part(size - 1)).collect()
    }

    fn part(&mut self, calls: usize) -> usize {
        match self.random.below(8) {
            _ if calls == 0 => self.draft.add(CONSTANT, 0, 2),
            0..=2 if calls > 1 => self.holder(PRIMITIVE, BESIDE, calls, 8),
            3 if calls > 1 => self.holder(PRIMITIVE, ADD, calls, 2),
            4 if calls > 1 => self.holder(LET, 0, calls, 9),
            5 if calls > 2 => {
                let node = self.draft.add(IF, 0, 0);
                self.each_some(node, calls, 3)
            }
            _ if calls == 1 || self.below > 0 => {
                let call = self.draft.add(CALL, 0, self.callee as u32);
                if self.below > 0 {
                    self.draft.items[call].children = self.parts(calls - 1, self.below);
                }
                call
            }
            _ => self.holder(PRIMITIVE, BESIDE, calls, 8),
        }
    }

    /// A node that holds two children or more, each with a call.
    fn holder(&mut self, kind: u8, extra: u8, calls: usize, most: usize) -> usize {
        let node = self.draft.add(kind, extra, 0);
        let count = if most == 2 { 2 } else { self.random.within(2, calls.min(most)) };
        self.each_some(node, calls, count)
    }

    fn each_some(&mut self, node: usize, calls: usize, count: usize) -> usize {
        let sizes = self.random.split(calls, count, false);
        let children = sizes.into_iter().map(|size| self.part(size)).collect();
        self.draft.items[node].children = children;
        node
    }
}

/// A call at each of 500 nodes below each other.
pub fn deep_calls() -> Vec<u8> {
    let mut callees = (1..=3).cycle();
    deep(|| (CALL, 0, callees.next().unwrap_or(1))).bytes()
}

/// A chain of 500 nodes below each other, calls and operations of one operand.
pub fn any_deep(random: &mut Random) -> Vec<u8> {
    let calls = random.below(5);
    let mut draft = deep(|| match random.below(4) < calls {
        true => (CALL, 0, random.within(1, 3) as u32),
        false => (PRIMITIVE, random.pick(&[DOUBLE, HALVE, LOW_BIT, BESIDE]), 0),
    });
    widths::give(random, &mut draft);
    numbered(random, &draft)
}

/// The functions under the chain are one that calls nothing, one that calls it, and one that calls both at once.
fn deep(mut pick: impl FnMut() -> (u8, u8, u32)) -> Draft {
    let mut draft = Draft::default();
    let one = draft.add(PARAMETER, 0, 0);
    let two = draft.add(CALL, 0, 1);
    add_below(&mut draft, two, PARAMETER, 0, 0);
    let three = two_calls(&mut draft);
    let (kind, extra, word) = pick();
    let main = draft.add(kind, extra, word);
    draft.functions = [one, two, three, main].map(|root| Head::new(1, root)).to_vec();
    let mut last = main;
    while draft.items.len() < MOST_NODES - 5 {
        let (kind, extra, word) = pick();
        last = add_below(&mut draft, last, kind, extra, word);
    }
    let end = two_calls(&mut draft);
    draft.items[last].children.push(end);
    draft
}

/// Two calls beside each other that share a function; one of them reaches it through another.
fn two_calls(draft: &mut Draft) -> usize {
    let root = draft.add(PRIMITIVE, BESIDE, 0);
    for callee in 1..=2 {
        let call = add_below(draft, root, CALL, 0, callee);
        add_below(draft, call, PARAMETER, 0, 0);
    }
    root
}

/// The functions under a comb: one that calls nothing and two that call the one before.
fn under_a_comb() -> Draft {
    let mut draft = Draft::default();
    let one = draft.add(CONSTANT, 0, 1);
    let two = draft.add(CALL, 0, 1);
    let three = draft.add(CALL, 0, 2);
    draft.functions = vec![Head::new(0, one), Head::new(0, two), Head::new(2, three)];
    draft
}

/// beside(g(), beside(g(), ..)): as many calls as fit, and all of them may meet.
pub fn deep_beside() -> Vec<u8> {
    let mut draft = under_a_comb();
    let root = draft.add(PRIMITIVE, BESIDE, 0);
    draft.functions.push(Head::new(0, root));
    let mut last = root;
    while draft.items.len() < MOST_NODES - 2 {
        add_below(&mut draft, last, CALL, 0, 2);
        last = add_below(&mut draft, last, PRIMITIVE, BESIDE, 0);
    }
    add_below(&mut draft, last, CALL, 0, 2);
    add_below(&mut draft, last, CALL, 0, 2);
    draft.bytes()
}

/// A chain in which each node has calls beside what is below it: in a primitive, a call, a let or an if.
pub fn any_comb(random: &mut Random) -> Vec<u8> {
    let mut draft = under_a_comb();
    let left = MOST_NODES - draft.items.len();
    let root = tooth(random, &mut draft, left);
    draft.functions.push(Head::new(0, root));
    widths::give(random, &mut draft);
    numbered(random, &draft)
}

/// A node of a comb and all that is below it, within so many nodes.
fn tooth(random: &mut Random, draft: &mut Draft, left: usize) -> usize {
    if left < 4 {
        return draft.add(CALL, 0, 1);
    }
    let (kind, extra, word, children) = random.pick(&[
        (PRIMITIVE, BESIDE, 0, 2),
        (PRIMITIVE, ADD, 0, 2),
        (CALL, 0, 3, 2),
        (LET, 0, 0, 2),
        (IF, 0, 0, 3),
    ]);
    let node = draft.add(kind, extra, word);
    let deep = random.below(children);
    for child in 0..children {
        if child == deep {
            let below = tooth(random, draft, left - children);
            draft.items[node].children.push(below);
        } else {
            let callee = random.within(1, 2) as u32;
            add_below(draft, node, CALL, 0, callee);
        }
    }
    node
}
