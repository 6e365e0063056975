//! The arbiter list from sets of functions alone, which fit a word: from the leaves up, what each part may call and
//! what the parts held against each other share; then, from the roots down, which callees have to be listed in each
//! part. A call is listed if its callee is among those of its own part, or has to be listed wherever its function is
//! called. Calls in bodies that main doesn't reach are taken for none.

use std::hint::select_unpredictable as select;

use numbers::{CALL, LET, MOST_FUNCTIONS, MOST_NODES, PRIMITIVE};

use crate::check::Survey;
use crate::reach::{for_each, Reach};
use crate::{first, next, Functions, Parts};

/// Of a node and the siblings after it, and of the same without the last: what they may call, and what two of them may.
#[derive(Clone, Copy, Default)]
struct Row {
    all: Functions,
    shared: Functions,
    but_last: Functions,
    shared_but_last: Functions,
}

/// What has to be listed at a node: for sure, if it is not the last of its siblings, and if it is.
#[derive(Clone, Copy, Default)]
struct Want {
    sure: Functions,
    if_other: Functions,
    if_last: Functions,
}

/// Fills the tags of the arbiter list; bits past N become 0. Returns what the check returns; a refusal keeps the tags.
pub fn list(table: &[u8], tags: &mut [u8; 64]) -> u32 {
    let (mut known, mut reach) = (Survey::empty(), Reach::unknown());
    let refused = reach.survey(table, &mut known);
    if refused != 0 {
        return refused;
    }
    let listed = listed(&Parts::of(table), &known, &reach);
    for (bytes, word) in tags.chunks_exact_mut(8).zip(listed) {
        bytes.copy_from_slice(&word.to_le_bytes());
    }
    0
}

fn listed(parts: &Parts, known: &Survey, reach: &Reach) -> [u64; MOST_NODES / 64] {
    let calls = Calls::of(parts, known, reach.reached);
    let bodies = bodies(reach);
    let mut rows = [Row::default(); MOST_NODES + 1];
    for (record, node) in parts.records.iter().zip(1..MOST_NODES + 1).rev() {
        let after = rows[next(record)];
        let own = rows[first(record)].all | bodies[usize::from(calls.callees[node])];
        rows[node] = Row {
            all: own | after.all,
            shared: after.shared | own & after.all,
            but_last: select(next(record) == 0, 0, own | after.but_last),
            shared_but_last: after.shared_but_last | own & after.but_last,
        };
    }
    let mut wants = [Want::default(); MOST_NODES + 1];
    let mut needs = [0; MOST_FUNCTIONS + 1];
    for (record, node) in parts.records.iter().zip(1..MOST_NODES + 1) {
        let own = wants[node];
        let sure = own.sure | select(next(record) == 0, own.if_last, own.if_other);
        let row = rows[first(record)];
        let is_let = record[0] == LET;
        let if_last = select((record[0] == PRIMITIVE) | (record[0] == CALL), row.shared, 0);
        // Written for an absent link too: nobody reads entry 0.
        wants[next(record)] = own;
        wants[first(record)] = Want { sure, if_other: select(is_let, row.shared_but_last, if_last), if_last };
        wants[node].sure = sure;
        needs[usize::from(calls.callees[node])] |= sure;
    }
    hand_on(reach, &mut needs);
    let mut listed = [0; MOST_NODES / 64];
    for node in &calls.nodes[..calls.count] {
        let node = usize::from(*node);
        let wanted = wants[node].sure | needs[usize::from(known.above[node].owner())];
        let is_listed = u64::from(wanted >> (calls.callees[node] - 1) & 1);
        listed[(node - 1) / 64] |= is_listed << ((node - 1) % 64);
    }
    listed
}

/// The calls in bodies that main reaches, but for self calls.
struct Calls {
    nodes: [u16; MOST_NODES],
    count: usize,
    /// By node, 0 for none.
    callees: [u8; MOST_NODES + 1],
}

impl Calls {
    fn of(parts: &Parts, known: &Survey, reached: Functions) -> Calls {
        let (mut nodes, mut count) = ([0; MOST_NODES], 0);
        let mut callees = [0; MOST_NODES + 1];
        for (record, node) in parts.records.iter().zip(1..MOST_NODES + 1) {
            let owner = known.above[node].owner();
            let is_reached = u64::from(reached) << 1 >> owner & 1 == 1;
            let is_other = (record[0] == CALL) & (record[2] != owner) & is_reached;
            callees[node] = select(is_other, record[2], 0);
            nodes[count % MOST_NODES] = node as u16;
            count += usize::from(is_other);
        }
        Calls { nodes, count, callees }
    }
}

/// Each reached function and what its body may call, bodies of callees included; none for 0.
fn bodies(reach: &Reach) -> [Functions; MOST_FUNCTIONS + 1] {
    let mut bodies = [0; MOST_FUNCTIONS + 1];
    // A callee comes before its callers.
    for_each(reach.reached, |function| {
        bodies[function] = 1 << (function - 1);
        for_each(reach.called[function], |callee| bodies[function] |= bodies[callee]);
    });
    bodies
}

/// What has to be listed in a function has to be in those it calls.
fn hand_on(reach: &Reach, needs: &mut [Functions; MOST_FUNCTIONS + 1]) {
    for function in (1..=MOST_FUNCTIONS).rev() {
        for_each(reach.called[function], |callee| needs[callee] |= needs[function]);
    }
}
