//! The arbiter list as one writes it at first: sets of calls as bits, each body that main reaches walked once, and the
//! sets of parts that run side by side held against each other where they meet.

use numbers::{BOUND, CALL, CONSTANT, IF, LET, PARAMETER, PRIMITIVE};
use numbers::{MOST_FUNCTIONS, MOST_NODES};

use crate::check::Survey;
use crate::reach::{for_each, Reach};
use crate::tags::words;
use crate::{first, next, Functions, Parts};

const WORDS: usize = MOST_NODES / 64;

/// Call nodes, node n at bit n - 1.
type Calls = [u64; WORDS];

const NO_CALLS: Calls = [0; WORDS];

/// By word: all of it and nothing else.
static FULL_AT: [Calls; WORDS] = {
    let mut sets = [NO_CALLS; WORDS];
    let mut at = 0;
    while at < WORDS {
        sets[at][at] = u64::MAX;
        at += 1;
    }
    sets
};

/// The same answer and the same tags as `list`.
pub fn list_by_sets(table: &[u8], tags: &mut [u8; 64]) -> u32 {
    let mut reach = Reach::unknown();
    let refused = reach.survey(table, &mut Survey::empty());
    if refused != 0 {
        return refused;
    }
    let mut walk = Walk::new(Parts::of(table));
    walk.reached(reach.reached);
    for (bytes, word) in tags.chunks_exact_mut(8).zip(walk.listed) {
        bytes.copy_from_slice(&word.to_le_bytes());
    }
    0
}

/// The lowest call of the list that these tags, which are in order, leave out.
pub(crate) fn untagged(parts: Parts, reached: Functions, tags: &[u8]) -> Option<u32> {
    let mut walk = Walk::new(parts);
    walk.reached(reached);
    for (begin, (listed, tagged)) in (1..).step_by(64).zip(walk.listed.into_iter().zip(words(tags))) {
        if listed & !tagged != 0 {
            return Some(begin + (listed & !tagged).trailing_zeros());
        }
    }
    None
}

pub(crate) struct Walk<'a> {
    parts: Parts<'a>,
    /// The function whose body is walked.
    function: usize,
    /// Of each body walked: the calls that may happen in it, and their callees.
    bodies: [Calls; MOST_FUNCTIONS + 1],
    callees: [Functions; MOST_FUNCTIONS + 1],
    /// Of each function the calls of it that were met, no self calls.
    pub sites: [Calls; MOST_FUNCTIONS + 1],
    pub listed: Calls,
}

impl<'a> Walk<'a> {
    pub fn new(parts: Parts<'a>) -> Walk<'a> {
        Walk {
            parts,
            function: 0,
            bodies: [NO_CALLS; MOST_FUNCTIONS + 1],
            callees: [0; MOST_FUNCTIONS + 1],
            sites: [NO_CALLS; MOST_FUNCTIONS + 1],
            listed: NO_CALLS,
        }
    }

    /// Walks all that main reaches in place: a walk returned from here would be copied.
    pub fn reached(&mut self, reached: Functions) {
        // A callee comes before its callers.
        for_each(reached, |function| {
            self.function = function;
            let mut calls = NO_CALLS;
            self.callees[function] = self.node(self.parts.root(function), &mut calls);
            self.bodies[function] = calls;
        });
    }

    /// Adds the calls that may happen at or below a node; returns their callees. What comes last in a node is walked in
    /// the same round, and a lone child is held against nothing.
    fn node(&mut self, mut node: usize, calls: &mut Calls) -> Functions {
        let mut callees = 0;
        loop {
            let record = self.parts.record(node);
            let child = first(record);
            let mut body = 0;
            match record[0] {
                PRIMITIVE => (),
                CALL => callees |= self.call(node, record[2].into(), calls),
                LET => body = self.last(child),
                IF => {
                    let then = next(self.parts.record(child));
                    callees |= self.part(child, calls) | self.part(then, calls);
                    node = next(self.parts.record(then));
                    continue;
                }
                _ => return callees,
            }
            if child == 0 {
                return callees;
            }
            if next(self.parts.record(child)) != body {
                callees |= self.side_by_side(child, body, calls);
            } else if body != 0 {
                callees |= self.part(child, calls);
            } else {
                body = child;
            }
            if body == 0 {
                return callees;
            }
            node = body;
        }
    }

    /// The same where a leaf is likely, which is not worth a round.
    fn part(&mut self, node: usize, calls: &mut Calls) -> Functions {
        if is_leaf(self.parts.record(node)[0]) {
            return 0;
        }
        self.node(node, calls)
    }

    fn last(&self, mut child: usize) -> usize {
        loop {
            match next(self.parts.record(child)) {
                0 => return child,
                after => child = after,
            }
        }
    }

    /// Siblings from this one up to, and without, an end: all of them may happen at once. It is part of the walk of a
    /// node, so that each level returns once: a processor foresees but few returns.
    #[inline(always)]
    fn side_by_side(&mut self, mut child: usize, end: usize, calls: &mut Calls) -> Functions {
        let mut own = NO_CALLS;
        let (mut callees, mut shared) = (0, 0);
        while child != end {
            let record = self.parts.record(child);
            if !is_leaf(record[0]) {
                let more = self.node(child, &mut own);
                shared |= callees & more;
                callees |= more;
            }
            child = next(record);
        }
        if callees != 0 {
            join(calls, &own);
            if shared != 0 {
                self.list(&own, callees, shared);
            }
        }
        callees
    }

    /// Lists those of the calls whose callee two of the parts share: all of them, if every callee is shared.
    fn list(&mut self, calls: &Calls, callees: Functions, mut shared: Functions) {
        if shared == callees {
            return join(&mut self.listed, calls);
        }
        let mut sites = NO_CALLS;
        while shared != 0 {
            join(&mut sites, &self.sites[shared.trailing_zeros() as usize + 1]);
            shared &= shared - 1;
        }
        for ((listed, call), site) in self.listed.iter_mut().zip(calls).zip(&sites) {
            *listed |= call & site;
        }
    }

    fn call(&mut self, node: usize, callee: usize, calls: &mut Calls) -> Functions {
        if callee == self.function {
            return 0;
        }
        let (at, bit) = ((node - 1) / 64, 1 << ((node - 1) % 64));
        // All words in one way: reading them together right after one was written alone is slow.
        for ((call, below), full) in calls.iter_mut().zip(&self.bodies[callee]).zip(&FULL_AT[at]) {
            *call |= below | full & bit;
        }
        self.sites[callee][at] |= bit;
        self.callees[callee] | 1 << (callee - 1)
    }
}

/// Constants, parameters and bounds call nothing.
fn is_leaf(kind: u8) -> bool {
    (1 << CONSTANT | 1 << PARAMETER | 1 << BOUND) >> kind & 1 == 1
}

fn join(calls: &mut Calls, more: &Calls) {
    for (word, more) in calls.iter_mut().zip(more) {
        *word |= more;
    }
}
