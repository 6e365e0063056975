//! Random tables that are mostly refused: accepted ones with something changed, and bytes from nowhere.

use std::collections::BTreeSet;

use numbers::{BOUND, CALL, CONSTANT, IF, LET, PARAMETER, PRIMITIVE};

use crate::check::owners;
use crate::generator::{accepted, accepted_spare, with_strays};
use crate::places::{count_at, node_at, put, root_at, set, swap, width_at, Places};
use crate::random::Random;
use crate::table::{Node, Table};
use crate::table::{EXTRA, FIRST, KIND, NEXT, WORD};
use crate::tree::Tree;

/// A table with one or several faults; by chance it may still be an accepted one.
pub fn damaged(random: &mut Random) -> Vec<u8> {
    match random.below(16) {
        0 => return plausible(random),
        1 => return noise(random),
        2..=4 => {
            let mut bytes = with_strays(random);
            let places = Places::all(&bytes);
            if random.once_in(3) {
                wide(random, &mut bytes, &places);
            }
            return bytes;
        }
        5 => return too_wide(random),
        _ => {}
    }
    let mut bytes = accepted(random);
    let places = Places::all(&bytes);
    let faults = if random.once_in(4) { random.within(2, 5) } else { 1 };
    damage(random, &mut bytes, &places, faults);
    // Length and header come last: the other faults have to find their records.
    match random.below(14) {
        0..=1 => length(random, &mut bytes),
        2..=3 => header(random, &mut bytes),
        _ => {}
    }
    bytes
}

/// A table with spare functions and faults in their records and bodies alone, and the nodes that main didn't reach
/// before; by chance it may still be an accepted one.
pub fn damaged_spare(random: &mut Random) -> (Vec<u8>, BTreeSet<Node>) {
    let mut bytes = accepted_spare(random);
    let tree = Tree::read(&bytes).expect("an accepted table");
    let places = Places::spare(&tree);
    let faults = if random.once_in(4) { random.within(2, 3) } else { 1 };
    damage(random, &mut bytes, &places, faults);
    (bytes, places.nodes.into_iter().collect())
}

/// Makes so many faults in these places of an accepted table, and now and then a constant that is too wide.
fn damage(random: &mut Random, bytes: &mut [u8], places: &Places, faults: usize) {
    if random.once_in(8) {
        wide(random, bytes, places);
    }
    for _ in 0..faults {
        match random.below(8) {
            0..=1 => links(random, bytes, places),
            2..=3 => fields(random, bytes, places),
            _ => sense(random, bytes, places),
        }
    }
}

/// A table in order but for one function or more that is too narrow for a constant; one without constants stays.
pub fn too_wide(random: &mut Random) -> Vec<u8> {
    let mut bytes = accepted(random);
    let places = Places::all(&bytes);
    for _ in 0..random.within(1, 2) {
        wide(random, &mut bytes, &places);
    }
    bytes
}

/// Bytes with no plan at all.
fn noise(random: &mut Random) -> Vec<u8> {
    let count = random.below(40);
    random.bytes(count)
}

/// The right length for its F and N, and small random numbers in all fields.
fn plausible(random: &mut Random) -> Vec<u8> {
    let functions = random.within(1, 3);
    let nodes = random.within(1, 6);
    let mut bytes = vec![functions as u8, 0, nodes as u8, 0];
    for _ in 0..functions {
        bytes.extend([random.below(3) as u8, random.below(3) as u8, random.within(1, nodes) as u8, 0]);
    }
    for number in 1..=nodes {
        let mut link = || match random.below(3) {
            0 => random.within(number, nodes) as u8,
            _ => 0,
        };
        let (first, next) = (link(), link());
        let kind = random.within(1, 7) as u8;
        bytes.extend([kind, random.below(2) as u8, random.below(3) as u8, 0, 0, 0, first, 0, next, 0]);
    }
    bytes
}

fn length(random: &mut Random, bytes: &mut Vec<u8>) {
    match random.below(5) {
        0..=1 => bytes.truncate(random.below(4)),
        2 => {
            let left = random.below(bytes.len());
            bytes.truncate(left);
        }
        3 => {
            let left = bytes.len() - random.within(1, 10);
            bytes.truncate(left);
        }
        _ => {
            for _ in 0..random.within(1, 12) {
                bytes.push(random.below(3) as u8);
            }
        }
    }
}

fn header(random: &mut Random, bytes: &mut [u8]) {
    let at = if random.once_in(2) { 0 } else { 2 };
    let old = u16::from_le_bytes([bytes[at], bytes[at + 1]]);
    let any = random.number() as u16;
    let new = random.pick(&[0, 33, 513, any, old + 1, old - 1, old | 0x100, old | 0x8000]);
    put(bytes, at, &new.to_le_bytes());
}

/// Roots, firsts and nexts.
fn links(random: &mut Random, bytes: &mut [u8], places: &Places) {
    let nodes = Table::new(bytes).node_count();
    let (node, other) = (places.node(random), places.node(random));
    let (function, sibling) = (places.function(random), places.function(random));
    let field = random.pick(&[FIRST, NEXT]);
    let lower = Node(random.within(1, usize::from(node.0)) as u16);
    let far = random.number() as u16;
    let value = random.pick(&[0, node.0, lower.0, other.0, other.0, nodes, nodes + 1, far]);
    match random.below(9) {
        0..=1 => put(bytes, root_at(function), &value.to_le_bytes()),
        2 => {
            let root = Table::new(bytes).root(sibling);
            put(bytes, root_at(function), &root.0.to_le_bytes());
        }
        3 => {
            // An earlier fault may have left no such root.
            let root = Table::new(bytes).root(function);
            if places.nodes.contains(&root) {
                set(bytes, root, NEXT, &value.to_le_bytes());
            }
        }
        4 => {
            let others = random.pick(&[FIRST, NEXT]);
            let (one, two) = (node_at(bytes, node, field), node_at(bytes, other, others));
            swap(bytes, one, two);
        }
        5 => {
            let (one, two) = (root_at(function), node_at(bytes, node, field));
            swap(bytes, one, two);
        }
        6 => swap(bytes, root_at(function), root_at(sibling)),
        _ => set(bytes, node, field, &value.to_le_bytes()),
    }
}

/// Counts, widths, kinds, operations and fields that have to be zero.
fn fields(random: &mut Random, bytes: &mut [u8], places: &Places) {
    let node = places.node(random);
    let function = places.function(random);
    let small = random.within(1, 255) as u8;
    match random.below(8) {
        0 => {
            let count = random.pick(&[9, 8, 255, small]);
            bytes[count_at(function)] = count;
        }
        1 => bytes[width_at(function)] = random.pick(&[33, 34, 63, 64, 65, 96, 128, 160, 255, small]),
        2 => {
            let kind = random.pick(&[0, 8, 255, small]);
            set(bytes, node, KIND, &[kind]);
        }
        3 => {
            let node = places.node_of_kind(random, bytes, PRIMITIVE);
            let operation = random.pick(&[11, 12, 255, small]);
            set(bytes, node, EXTRA, &[operation]);
        }
        4 => set(bytes, node, EXTRA, &[small]),
        5 => {
            let word = random.word();
            set(bytes, node, WORD, &word.to_le_bytes());
        }
        6 => {
            let at = node_at(bytes, node, WORD) + random.below(4);
            bytes[at] = small;
        }
        _ => {
            let at = places.byte(random, bytes);
            bytes[at] ^= 1 << random.below(8);
        }
    }
}

/// A constant that its function is too narrow for, at the limit itself or above. Links are in order; a function of all
/// bits is made narrower, and so now and then is another.
fn wide(random: &mut Random, bytes: &mut [u8], places: &Places) {
    let node = places.node_of_kind(random, bytes, CONSTANT);
    let table = Table::new(bytes);
    if table.kind(node) != CONSTANT {
        return;
    }
    let function = owners(&table)[&node];
    let width = match table.width(function) {
        width @ 1..=31 if !random.once_in(4) => width,
        _ => random.within(1, 31) as u8,
    };
    let limit = 1 << width;
    let higher = limit << random.below(32 - usize::from(width));
    let any = limit | random.word();
    let word = random.pick(&[limit, limit, limit + 1, higher, any, u32::MAX]);
    bytes[width_at(function)] = width;
    set(bytes, node, WORD, &word.to_le_bytes());
}

/// Faults in a table whose links and fields are in order.
fn sense(random: &mut Random, bytes: &mut [u8], places: &Places) {
    match random.below(9) {
        0..=2 => callee(random, bytes, places),
        3 => {
            let node = places.node_of_kind(random, bytes, PRIMITIVE);
            let operation = random.below(11) as u8;
            set(bytes, node, EXTRA, &[operation]);
        }
        4 => another_kind(random, bytes, places),
        5 => {
            let function = places.function(random);
            bytes[count_at(function)] = random.below(9) as u8;
        }
        6 => {
            let node = places.node_of_kind(random, bytes, PARAMETER);
            let index = random.pick(&[0, 1, 2, 3, 7, 8, 9, 255]);
            set(bytes, node, EXTRA, &[index]);
        }
        7 => own_call(random, bytes, places),
        _ => bound(random, bytes, places),
    }
}

fn callee(random: &mut Random, bytes: &mut [u8], places: &Places) {
    let node = places.node_of_kind(random, bytes, CALL);
    let functions = u32::from(Table::new(bytes).function_count());
    let old = Table::new(bytes).word(node);
    let other = random.within(1, functions as usize) as u32;
    let high = 1 << random.within(6, 31);
    let new = random.pick(&[0, old.wrapping_add(1), functions, functions + 1, old | high, old | 0x10000, other, other]);
    set(bytes, node, WORD, &new.to_le_bytes());
}

/// A call of its own function in the place of a node with as many children; in tail position it is no fault.
fn own_call(random: &mut Random, bytes: &mut [u8], places: &Places) {
    let table = Table::new(bytes);
    let owners = owners(&table);
    let parameters = |node: Node| owners.get(&node).map(|owner| usize::from(table.parameter_count(*owner)));
    let fits = |node: Node| parameters(node) == Some(table.children(node).len());
    if let Some(node) = places.fitting_node(random, fits) {
        let own = u32::from(owners[&node].0);
        set(bytes, node, KIND, &[CALL, 0]);
        set(bytes, node, WORD, &own.to_le_bytes());
    }
}

/// Another kind with fields that fit it, so that the number of children or the scope is what is wrong.
fn another_kind(random: &mut Random, bytes: &mut [u8], places: &Places) {
    let node = places.node(random);
    let table = Table::new(bytes);
    let (functions, nodes) = (table.function_count(), table.node_count());
    let leaf = table.first(node).0 == 0;
    let kinds: &[u8] = match (random.once_in(4), leaf) {
        (true, _) => &[CONSTANT, PARAMETER, PRIMITIVE, CALL, IF, LET, BOUND],
        (false, true) => &[CONSTANT, PARAMETER, CALL, BOUND],
        (false, false) => &[PRIMITIVE, CALL, IF, LET],
    };
    let kind = random.pick(kinds);
    let extra = match kind {
        PARAMETER => random.below(8),
        PRIMITIVE => random.below(11),
        _ => 0,
    };
    let word = match kind {
        CALL => random.within(1, usize::from(functions)),
        BOUND => random.within(1, usize::from(nodes)),
        _ => 0,
    };
    set(bytes, node, KIND, &[kind, extra as u8]);
    set(bytes, node, WORD, &(word as u32).to_le_bytes());
}

fn bound(random: &mut Random, bytes: &mut [u8], places: &Places) {
    let node = places.node_of_kind(random, bytes, BOUND);
    let old = Table::new(bytes).word(node);
    let own = u32::from(node.0);
    let any = random.within(1, Table::new(bytes).node_count().into()) as u32;
    let definiens = u32::from(Table::new(bytes).first(places.node_of_kind(random, bytes, LET)).0);
    let high = 1 << random.within(10, 31);
    let new =
        random.pick(&[0, own, old.wrapping_add(1), old.wrapping_sub(1), old | high, any, any, definiens, definiens]);
    set(bytes, node, WORD, &new.to_le_bytes());
}
