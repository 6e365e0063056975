//! Whether bounds are in scope of their definientia.

use std::hint::select_unpredictable as select;

use numbers::MOST_NODES;

use crate::check::Above;
use crate::{first, next, word, Parts};

/// Whether each of these bounds is in the body of a let that has its definiens, in time linear in the table.
pub(crate) fn all_see(parts: &Parts, above: &[Above], bounds: &[u16]) -> bool {
    let mut steps = parts.nodes();
    let mut order = None;
    let mut all = true;
    for bound in bounds {
        let bound = usize::from(*bound);
        let definiens = word(parts.record(bound)) as usize;
        if !is_before(definiens, bound) {
            return false;
        }
        let holder = above[definiens].holder();
        let scope = outwards(above[bound].scope(), holder, &mut steps, |scope| above[scope].scope());
        all &= match scope > holder {
            false => (scope == holder) & above[definiens].is_in_let() & (next(parts.record(definiens)) != 0),
            true => order.get_or_insert_with(|| Order::of(parts, above)).sees(parts, above, bound),
        };
    }
    all
}

/// From a let to those around it, until one doesn't come after the holder or no steps are left.
pub(crate) fn outwards(scope: usize, holder: usize, steps: &mut usize, around: impl Fn(usize) -> usize) -> usize {
    let outer = |scope: usize| select(scope > holder, around(scope), scope);
    // Lets come before what is in them. Most are near, and how near is hard to foresee.
    let mut scope = outer(outer(outer(scope)));
    while scope > holder && *steps > 0 {
        scope = outer(scope);
        *steps -= 1;
    }
    scope
}

/// A definiens comes before the body.
pub(crate) fn is_before(definiens: usize, bound: usize) -> bool {
    definiens != 0 && definiens < bound
}

/// The nodes in preorder, so that what is at and below a node is a range.
pub(crate) struct Order {
    begin: [u16; MOST_NODES + 1],
    size: [u16; MOST_NODES + 1],
    /// The last child.
    last: [u16; MOST_NODES + 1],
}

impl Order {
    /// Of a table that isn't refused for its links.
    #[cold]
    pub fn of(parts: &Parts, above: &[Above]) -> Order {
        let [mut begin, mut size, mut last, mut span] = [[0; MOST_NODES + 1]; 4];
        for node in (1..=parts.nodes()).rev() {
            let record = parts.record(node);
            size[node] = 1 + span[first(record)];
            span[node] = size[node] + span[next(record)];
        }
        let mut free = 0;
        for function in 1..=parts.functions() {
            begin[parts.root(function)] = free;
            free += size[parts.root(function)];
        }
        for node in 1..=parts.nodes() {
            let record = parts.record(node);
            begin[first(record)] = begin[node] + 1;
            begin[next(record)] = begin[node] + size[node];
            // The last one stays.
            last[above[node].holder()] = node as u16;
        }
        Order { begin, size, last }
    }

    /// Whether a bound is in the body of a let that has its definiens.
    pub fn sees(&self, parts: &Parts, above: &[Above], bound: usize) -> bool {
        let definiens = word(parts.record(bound)) as usize;
        if !is_before(definiens, bound) || !above[definiens].is_in_let() {
            return false;
        }
        let body = usize::from(self.last[above[definiens].holder()]);
        body != definiens && self.begin[bound].wrapping_sub(self.begin[body]) < self.size[body]
    }
}
