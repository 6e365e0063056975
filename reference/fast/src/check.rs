//! The table check in one pass over the nodes and one over the bounds. What a node has to be is looked up and not
//! branched on: the kinds of neighbouring nodes are hard to foresee.

use std::hint::select_unpredictable as select;

use numbers::{BOUND, CALL, CONSTANT, IF, LET, PARAMETER};
use numbers::{MOST_FUNCTIONS, MOST_NODES, MOST_WIDTH};

use crate::rules::{rule, whole};
use crate::scope::{all_see, Order};
use crate::{beyond, first, half, next, refusal, word, Functions, Parts};

/// 0 for an accepted table, else the refusal's number times 65536 plus its place.
pub fn check(table: &[u8]) -> u32 {
    survey(table, &mut Survey::empty())
}

/// The same, and what was learnt of an accepted table on the way.
pub(crate) fn survey(table: &[u8], survey: &mut Survey) -> u32 {
    survey_calls::<false>(table, survey, &mut [])
}

/// The same and, where it is asked for, what each body calls, maybe its own function. There is a place for `CALLERS`.
pub(crate) fn survey_calls<const ASKED: bool>(table: &[u8], survey: &mut Survey, called: &mut [Functions]) -> u32 {
    let parts = match framed(table) {
        Ok(parts) => parts,
        Err(refused) => return refused,
    };
    match survey.look::<ASKED>(&parts, called) {
        Some(false) => 0,
        Some(true) => fault(&parts, survey),
        None => links(&parts),
    }
}

/// The parts of a table, or one of the refusals 1 to 3.
pub(crate) fn framed(table: &[u8]) -> Result<Parts<'_>, u32> {
    if table.len() < 4 {
        return Err(refusal(1, 0));
    }
    let (functions, nodes) = (half(table, 0), half(table, 2));
    if !(1..=MOST_FUNCTIONS).contains(&functions) || !(1..=MOST_NODES).contains(&nodes) {
        return Err(refusal(2, 0));
    }
    if table.len() != 4 + 4 * functions + 10 * nodes {
        return Err(refusal(3, 0));
    }
    Ok(Parts::of(table))
}

/// Refusal 4, which applies.
#[cold]
fn links(parts: &Parts) -> u32 {
    let nodes = parts.nodes();
    let mut named = [0u8; MOST_NODES + 1];
    let mut lowest = nodes + 1;
    for head in parts.heads {
        let root = half(head, 2);
        if root == 0 || root > nodes {
            return refusal(4, 0);
        }
        named[root] = named[root].saturating_add(1);
        if next(parts.record(root)) != 0 {
            lowest = lowest.min(root);
        }
    }
    for node in 1..=nodes {
        let record = parts.record(node);
        for link in [first(record), next(record)] {
            if link != 0 {
                if link <= node || link > nodes {
                    lowest = lowest.min(node);
                }
                if link <= nodes {
                    named[link] = named[link].saturating_add(1);
                }
            }
        }
    }
    let miscounted = named[1..lowest].iter().position(|count| *count != 1);
    refusal(4, miscounted.map_or(lowest, |before| before + 1) as u32)
}

/// What a node has from its holder, zeros while nobody has named it. It goes from a node to its first child, and from a
/// child to the next.
#[derive(Clone, Copy)]
pub(crate) struct Above {
    /// From the lowest bit: the function (6 bits), which of the siblings are in tail position (3), whether the holder
    /// is a let (1), and two numbers that grow with each sibling (11 each): the first has its high bit once there are
    /// enough, the second if there are too many.
    place: u32,
    /// The holder, 0 for a root, and, in the upper half, the innermost let in whose body the node is.
    around: u32,
}

const OWNER: u32 = 0x3f;
/// Functions that these bits tell apart, so that no bound has to be looked at.
pub(crate) const CALLERS: usize = OWNER as usize + 1;
/// In tail position anyway, if it comes after this one, and if it is the last sibling.
const TAIL: u32 = 1 << 6;
const TAIL_AFTER: u32 = 1 << 7;
const TAIL_LAST: u32 = 1 << 8;
const IN_LET: u32 = 1 << 9;
const ENOUGH: u32 = 1 << 20;
const TOO_MANY: u32 = 1 << 31;
/// One in both counts.
const ONE: u32 = 1 << 21 | 1 << 10;

impl Above {
    const NONE: Above = Above { place: 0, around: 0 };

    const fn root(function: usize) -> Above {
        Above { place: function as u32 | TAIL | ENOUGH, around: 0 }
    }

    /// The place of every first child of such a node in tail position, but for the function.
    pub const fn below(kind: u8, fewest: u8, most: u8) -> u32 {
        let kind = match kind {
            IF => TAIL_AFTER,
            LET => TAIL_LAST | IN_LET,
            _ => 0,
        };
        kind | (ENOUGH + (1 << 10) - ((fewest as u32) << 10)) | (TOO_MANY - ((most as u32) << 21))
    }

    fn next(self) -> Above {
        Above { place: self.place.wrapping_add(ONE) | (self.place & TAIL_AFTER) >> 1, around: self.around }
    }

    /// The same with the let around it, if it is a let's body.
    fn in_scope(self, is_last: bool) -> Above {
        let inner = (self.around & 0xffff) * 0x1_0001;
        Above { around: select(self.is_in_let() & is_last, inner, self.around), ..self }
    }

    fn in_tail(self, is_last: bool) -> bool {
        self.place & select(is_last, TAIL | TAIL_LAST, TAIL) != 0
    }

    /// Of a last sibling: not zero if it ends a wrong number of them.
    fn miscounts(self) -> u32 {
        (self.place ^ ENOUGH) & (ENOUGH | TOO_MANY)
    }

    /// The innermost let in whose body the node is, 0 for none.
    pub fn scope(self) -> usize {
        (self.around >> 16) as usize
    }

    pub fn is_in_let(self) -> bool {
        self.place & IN_LET != 0
    }

    pub fn owner(self) -> u8 {
        (self.place & OWNER) as u8
    }

    /// The holder, 0 for a root.
    pub fn holder(self) -> usize {
        usize::from(self.around as u16)
    }
}

/// What the check learns of an accepted table, node n at n.
pub(crate) struct Survey {
    pub above: [Above; MOST_NODES + 1],
}

impl Survey {
    pub fn empty() -> Survey {
        Survey { above: [Above::NONE; MOST_NODES + 1] }
    }

    /// Whether one of the refusals 5 to 9 or 25 applies, or none where 4 does. A name is a root, a first or a next; they
    /// come before the node that they name, and every node is named once if each is named and the names come to the sum
    /// of all nodes.
    fn look<const ASKED: bool>(&mut self, parts: &Parts, called: &mut [Functions]) -> Option<bool> {
        let nodes = parts.nodes();
        let above = self.above.get_mut(..=nodes)?;
        let called = if ASKED { called.get_mut(..CALLERS)? } else { called };
        let mut parameters = [0; 256];
        let mut wide = [0; MOST_FUNCTIONS + 1];
        let (mut names, mut bad) = (0, 0);
        for (index, head) in parts.heads.iter().enumerate() {
            let root = half(head, 2);
            if root == 0 || root > nodes || next(parts.record(root)) != 0 {
                return None;
            }
            bad |= u64::from(is_bad(head));
            parameters[index + 1] = head[0];
            wide[index + 1] = beyond(head[1]);
            above[root] = Above::root(index + 1);
            names += root;
        }
        let (mut bounds, mut bound_count) = ([0; MOST_NODES], 0);
        for (before, record) in parts.records.iter().enumerate() {
            let node = before + 1;
            let (whole, next) = (whole(record), next(record));
            let (kind, extra, word, first) = (whole as u8, (whole >> 8) as u8, (whole >> 16) as u32, whole >> 48);
            let (first, is_last) = (first as usize, next == 0);
            let named = above[node];
            if named.owner() == 0 || first.wrapping_sub(1) < node || next.wrapping_sub(1) < node {
                return None;
            }
            names += first + next;
            // Written for an absent link too: nobody asks for entry 0.
            *above.get_mut(next)? = named.next();
            let own = named.in_scope(is_last);
            above[node].around = own.around;
            let (owner, in_tail) = (own.owner(), own.in_tail(is_last));
            let rule = rule(kind, extra);
            let arguments = u32::from(select(kind == CALL, parameters[usize::from(word as u8)], 0));
            let below = rule.below & select(in_tail, !0, !(TAIL_LAST | TAIL_AFTER));
            *above.get_mut(first)? = Above {
                place: below.wrapping_sub(arguments * ONE) | u32::from(owner),
                around: own.around & 0xffff_0000 | node as u32,
            };
            if ASKED {
                called[usize::from(owner)] |= Functions::from(kind == CALL) << (word.wrapping_sub(1) % Functions::BITS);
            }
            // Only in tail position the own function may be called.
            let callees = u32::from(owner) - u32::from(!in_tail);
            bad |= whole & (rule.zero | rule.room & wide[usize::from(owner)])
                | u64::from(select(first == 0, rule.fewest | arguments, 0))
                | u64::from((kind == CALL) & (word.wrapping_sub(1) >= callees))
                | u64::from((kind == PARAMETER) & (extra >= parameters[usize::from(owner)]))
                | u64::from(select(is_last, own.miscounts(), 0));
            bounds[bound_count % MOST_NODES] = node as u16;
            bound_count += usize::from(kind == BOUND);
        }
        if names != nodes * (nodes + 1) / 2 {
            return None;
        }
        Some(bad != 0 || !all_see(parts, above, &bounds[..bound_count]))
    }
}

/// Whether a function record is refused 5.
pub(crate) fn is_bad(head: &[u8; 4]) -> bool {
    head[0] > 8 || head[1] > MOST_WIDTH
}

/// The lowest of the refusals 5 to 9 and 25, one of which applies: the lowest number, and within it the lowest node.
#[cold]
fn fault(parts: &Parts, known: &Survey) -> u32 {
    if parts.heads.iter().any(is_bad) {
        return refusal(5, 0);
    }
    let order = Order::of(parts, &known.above);
    let number = |(record, node): (&[u8; 10], usize)| {
        let (kind, extra, word, above) = (record[0], record[1], word(record), known.above[node]);
        let (rule, owner) = (rule(kind, extra), u32::from(above.owner()));
        let mut children = 0;
        let mut child = first(record);
        while child != 0 {
            children += 1;
            child = next(parts.record(child));
        }
        let range = match kind {
            CALL if (1..=owner).contains(&word) => {
                let arguments = parts.parameters(word as usize) as u32;
                arguments..=arguments
            }
            _ => rule.fewest..=rule.most,
        };
        let is_seen = match kind {
            PARAMETER => usize::from(extra) < parts.parameters(owner as usize),
            BOUND => order.sees(parts, &known.above, node),
            _ => true,
        };
        if kind == 0 || whole(record) & rule.zero != 0 {
            5
        } else if kind == CALL && !(1..=owner).contains(&word) {
            6
        } else if !range.contains(&children) {
            7
        } else if !is_seen {
            8
        } else if kind == CALL && word == owner && !above.in_tail(next(record) == 0) {
            9
        } else if kind == CONSTANT && word & !parts.mask(owner as usize) != 0 {
            25
        } else {
            NO_FAULT
        }
    };
    let faults = parts.records.iter().zip(1..).map(|record| refusal(number(record), record.1 as u32));
    faults.min().unwrap_or(0)
}

/// Above every refusal's number.
const NO_FAULT: u32 = 99;
