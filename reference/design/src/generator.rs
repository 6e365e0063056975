//! Random accepted tables from fixed seeds.

use numbers::{MOST_FUNCTIONS, MOST_NODES};

use crate::draft::Draft;
use crate::maker::{Callees, Maker, Stray, Taste};
use crate::plan::{Plan, Reach};
use crate::random::Random;
use crate::widths::widths;

/// An accepted table of any size; small ones are frequent. About a third of them have spare functions.
pub fn accepted(random: &mut Random) -> Vec<u8> {
    let nodes = size(random);
    accepted_of(random, nodes)
}

/// An accepted table of just this many nodes.
pub fn accepted_of(random: &mut Random, nodes: usize) -> Vec<u8> {
    let (taste, reach) = (taste(random), reach(random));
    table(random, nodes, taste, reach)
}

/// An accepted table with many calls of few functions, so that arms mostly share some.
pub fn accepted_sharing(random: &mut Random) -> Vec<u8> {
    let nodes = size(random).max(random.within(12, 60));
    accepted_sharing_of(random, nodes)
}

/// The same of just this many nodes.
pub fn accepted_sharing_of(random: &mut Random, nodes: usize) -> Vec<u8> {
    let (taste, reach) = (sharing(random), reach(random));
    table(random, nodes, taste, reach)
}

/// An accepted table with spare functions, in half of the cases with many calls of few functions.
pub fn accepted_spare(random: &mut Random) -> Vec<u8> {
    let nodes = size(random).max(2);
    accepted_spare_of(random, nodes)
}

/// The same of just this many nodes, two or more.
pub fn accepted_spare_of(random: &mut Random, nodes: usize) -> Vec<u8> {
    let taste = random.pick(&[taste, sharing])(random);
    table(random, nodes, taste, Reach::NotAll)
}

/// A table with one kind of rule kept loosely, for refusals 7 to 9; it may by chance be an accepted one.
pub fn with_strays(random: &mut Random) -> Vec<u8> {
    let nodes = size(random);
    let stray = random.pick(&[Stray::SelfCalls, Stray::Counts, Stray::Scope]);
    let (taste, reach) = (Taste { stray, ..taste(random) }, reach(random));
    table(random, nodes, taste, reach)
}

fn size(random: &mut Random) -> usize {
    match random.below(20) {
        0..=11 => random.within(1, 40),
        12..=17 => random.within(20, 160),
        18 => random.within(100, MOST_NODES),
        _ => random.within(MOST_NODES - 3, MOST_NODES),
    }
}

fn reach(random: &mut Random) -> Reach {
    match random.once_in(3) {
        true => Reach::NotAll,
        false => Reach::All,
    }
}

fn taste(random: &mut Random) -> Taste {
    Taste {
        primitives: random.within(1, 6),
        calls: random.within(1, 8),
        ifs: random.within(0, 3),
        lets: random.within(0, 4),
        deep: random.once_in(4),
        callees: random.pick(&[Callees::Any, Callees::Lowest, Callees::Nearest]),
        stray: Stray::Nothing,
    }
}

fn sharing(random: &mut Random) -> Taste {
    let calls = random.within(6, 12);
    let callees = random.pick(&[Callees::Lowest, Callees::Nearest, Callees::Any]);
    Taste { calls, callees, ..taste(random) }
}

fn table(random: &mut Random, nodes: usize, taste: Taste, reach: Reach) -> Vec<u8> {
    let most = nodes.min(MOST_FUNCTIONS);
    // One function alone can't be spare.
    let fewest = if reach == Reach::NotAll { most.min(2) } else { 1 };
    let functions = match random.below(8) {
        0 => most,
        1 => random.within(fewest, most),
        // Bodies of some nodes each: one of a node or two has no arms.
        _ => random.within(fewest, most.min(2 + nodes / 6)),
    };
    // Where parameters are few, small parts have room for calls, and arms come to share functions.
    let few = random.once_in(2);
    let parameters: Vec<u8> = (0..functions).map(|_| parameter_count(random, few)).collect();
    let sizes = match reach {
        // A small main beside what it doesn't reach, which answers soon.
        Reach::NotAll if functions > 1 && random.once_in(2) => {
            let main = random.within(1, 4).min(nodes + 1 - functions);
            [random.split(nodes - main, functions - 1, taste.deep), vec![main]].concat()
        }
        _ => random.split(nodes, functions, taste.deep),
    };
    let plan = Plan::new(random, sizes, reach);
    let widths = widths(random, functions);
    let draft = Maker::new(random, taste, &plan, parameters, &widths).design();
    numbered(random, &draft)
}

/// The table of a draft, numbered function by function or in any other order.
pub(crate) fn numbered(random: &mut Random, draft: &Draft) -> Vec<u8> {
    match random.once_in(3) {
        true => draft.bytes_with(&draft.in_order()),
        false => shuffled(random, draft),
    }
}

fn parameter_count(random: &mut Random, few: bool) -> u8 {
    match random.below(8) {
        0..=6 if few => random.below(2) as u8,
        0 => 0,
        1..=5 => random.within(1, 3) as u8,
        6 => random.within(4, 8) as u8,
        _ => 8,
    }
}

/// Numbers the nodes in any order in which child and next come after their holder.
fn shuffled(random: &mut Random, draft: &Draft) -> Vec<u8> {
    let nexts = draft.nexts();
    let mut ready: Vec<usize> = draft.functions.iter().map(|head| head.root).collect();
    let mut numbers = vec![0; draft.items.len()];
    // Taking from the end now and then keeps some runs of near nodes together.
    let near = random.below(4);
    for number in 1..=draft.items.len() as u16 {
        let at = if random.below(4) < near { ready.len() - 1 } else { random.below(ready.len()) };
        let node = ready.swap_remove(at);
        numbers[node] = number;
        ready.extend(draft.items[node].children.first());
        ready.extend(nexts[node]);
    }
    draft.bytes_with(&numbers)
}
