//! The table check another way: one word per node, with counts that grow into the bits that mark them as wrong. It only
//! says which tables are clean, and leaves all others to the plain check.

mod above;
mod rules;

use std::hint::select_unpredictable as select;

use numbers::{CONSTANT, MOST_FUNCTIONS, MOST_NODES};

use crate::check::{check, framed, is_bad};
use crate::rules::whole;
use crate::scope::{is_before, outwards};
use crate::{beyond, first, half, next, word, Parts};
use above::{Above, OWNER, TOO_FEW, TOO_MANY};
use rules::{arguments_of, room_of, rule, BOUNDS_AT, NO_ROOM};

/// The same answer as `check`.
pub fn check_packed(table: &[u8]) -> u32 {
    match framed(table) {
        Ok(parts) if is_clean(&parts) => 0,
        _ => check(table),
    }
}

/// Whether none of the refusals 4 to 9 and 25 applies; false too where that takes long to tell. A name is a root, a
/// first or a next. If every node was named before it is looked at and the names come to the sum of all nodes, each is
/// named once, and by a lower one.
fn is_clean(parts: &Parts) -> bool {
    let nodes = parts.nodes();
    let mut above = [Above::NONE; MOST_NODES + 1];
    let (mut arguments, mut room, mut wide) = ([0; 64], [0; 64], [0; 64]);
    // An unnamed node has function 0.
    room[0] = NO_ROOM;
    // The sum of the names, and above it the number of bounds.
    let mut tally = 0;
    for (head, function) in parts.heads.iter().zip(1..MOST_FUNCTIONS + 1) {
        let root = half(head, 2);
        if root == 0 || root > nodes || next(parts.record(root)) != 0 || is_bad(head) {
            return false;
        }
        arguments[function] = arguments_of(head[0]);
        room[function] = room_of(function, head[0]);
        wide[function] = beyond(head[1]);
        above[root] = Above::root(function);
        tally += root;
    }
    let (mut wrong, mut ends) = (0, 0);
    let mut bounds = [0; MOST_NODES];
    for node in 1..nodes.min(MOST_NODES) + 1 {
        let record = parts.record(node);
        let (whole, first, next) = (whole(record), first(record), next(record));
        if first > MOST_NODES || next > MOST_NODES {
            return false;
        }
        let is_last = next == 0;
        let rule = rule(whole);
        wrong |= whole & rule.zero;
        bounds[(tally >> BOUNDS_AT) % MOST_NODES] = node as u16;
        tally += first + next + rule.bounds as usize;
        let asked = whole as u32 & rule.asked;
        let below = rule.below.wrapping_add(arguments[(asked >> 16) as usize % 64]) | node as u64;
        let named = above[node];
        let in_tail = named.in_tail(is_last);
        let tail = select(in_tail, rule.below_tail, 0);
        // An absent link is written too: entry 0 has the counts with which siblings ended.
        above[next] = named.next();
        ends |= above[0].0;
        // The next node may wait for this: what comes late goes in late, and mixed operators keep that order.
        above[first] = Above(((below + (named.0 & OWNER)) ^ tail) | named.inner(is_last));
        ends |= above[0].0;
        // Out of tail position the own function is one too many.
        let used = asked + (u32::from(!in_tail) << 16) + room[named.owner()];
        wrong |= u64::from(used & NO_ROOM) | whole & select(whole as u8 == CONSTANT, wide[named.owner()], 0);
    }
    let (names, bound_count) = (tally % (1 << BOUNDS_AT), tally >> BOUNDS_AT);
    (wrong | ends & (TOO_MANY | TOO_FEW)) == 0
        && names == nodes * (nodes + 1) / 2
        && all_see(parts, &above, &bounds[..bound_count])
}

/// Whether each of these bounds is in the body of a let that has its definiens; false too if the steps don't suffice.
fn all_see(parts: &Parts, above: &[Above], bounds: &[u16]) -> bool {
    let mut steps = parts.nodes();
    let mut all = true;
    for bound in bounds {
        let bound = usize::from(*bound);
        let definiens = word(parts.record(bound)) as usize;
        if !is_before(definiens, bound) {
            return false;
        }
        let (held, holder) = (above[definiens], above[definiens].holder());
        let around = |node: usize| above[node].scope(next(parts.record(node)) == 0);
        // Scope 0 has no record, and is never gone out of.
        let scope = outwards(around(bound), holder, &mut steps, |scope| around(scope.max(1)));
        all &= (scope == holder) & held.is_in_let() & (next(parts.record(definiens)) != 0);
    }
    all
}

/// Else the plain check would answer for all.
#[test]
fn accepted_tables_are_clean() {
    let mut random = design::random::Random::new(19);
    for _ in 0..4000 {
        let table = design::generator::accepted(&mut random);
        assert!(is_clean(&Parts::of(&table)), "{}", design::difference::shown(&table));
    }
}
