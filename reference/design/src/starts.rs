//! What is handed to a start by chance, with faults in table, tags and arguments, often several at once.

use numbers::MOST_NODES;

use crate::check::check;
use crate::damage::{damaged, too_wide};
use crate::generator::{accepted, accepted_sharing, accepted_sharing_of};
use crate::list::{check_tags, missing, tag_length};
use crate::places::width_at;
use crate::random::Random;
use crate::states::{damaged_tags, holding_tags, missing_tags, tags};
use crate::table::{Function, Refusal, Table};
use crate::tag_kinds::tag_kinds;
use crate::tree::Tree;

/// A table, tags and main's arguments.
pub struct Start {
    pub bytes: Vec<u8>,
    pub tags: Vec<u8>,
    pub arguments: Vec<u32>,
}

/// Refusals of which more than one applies, so that their order shows.
pub const ORDER: [&str; 8] = [
    "10 before 11",
    "10 before 26",
    "10 before 11 and 26",
    "11 before 26",
    "25 before 10",
    "25 before 11",
    "25 before 26",
    "25 before 11 and 26",
];

/// A start with nothing to be refused for but what it is called by.
pub const ALONE: [&str; 5] = ["nothing is refused", "10 alone", "11 alone", "25 alone", "26 alone"];

impl Start {
    /// Mostly with an accepted table, and then mostly with tags in order and as many arguments as main has parameters.
    pub fn some(random: &mut Random) -> Start {
        let bytes = some_table(random);
        let tags = some_tags(random, &bytes);
        let arguments = some_arguments(random, &bytes);
        Start { bytes, tags, arguments }
    }

    /// Its kinds: one of `ORDER` or `ALONE` unless the table is refused for something else, and what `tag_kinds` tells
    /// of tags that are in order.
    pub fn kinds(&self) -> Vec<&'static str> {
        let (tree, is_wide) = match Tree::read(&self.bytes) {
            Ok(tree) => (tree, false),
            Err(Refusal { number: 25, .. }) => (widened(&self.bytes), true),
            Err(_) => return Vec::new(),
        };
        let in_order = check_tags(&tree, &self.tags).is_ok();
        // Beside a fault too a listed call may lack its tag, if there is a bit for each node.
        let misses = self.tags.len() == tag_length(&tree) && missing(&tree, &self.tags).is_some();
        let miscounts = self.arguments.len() != tree.parameters(tree.main());
        let mut found = vec![match (is_wide, in_order, miscounts, misses) {
            (false, true, false, false) => "nothing is refused",
            (false, true, false, true) => "26 alone",
            (false, true, true, false) => "11 alone",
            (false, true, true, true) => "11 before 26",
            (false, false, false, false) => "10 alone",
            (false, false, false, true) => "10 before 26",
            (false, false, true, false) => "10 before 11",
            (false, false, true, true) => "10 before 11 and 26",
            (true, false, ..) => "25 before 10",
            (true, true, false, false) => "25 alone",
            (true, true, false, true) => "25 before 26",
            (true, true, true, false) => "25 before 11",
            (true, true, true, true) => "25 before 11 and 26",
        }];
        if in_order && !is_wide {
            found.extend(tag_kinds(&tree, &self.tags));
        }
        found
    }
}

/// The design of a table that is refused for a wide constant alone, with room for it.
fn widened(bytes: &[u8]) -> Tree {
    let mut wide = bytes.to_vec();
    for function in Table::new(bytes).functions() {
        wide[width_at(function)] = 0;
    }
    Tree::read(&wide).expect("nothing else is refused")
}

fn some_table(random: &mut Random) -> Vec<u8> {
    match random.below(30) {
        0..=8 => damaged(random),
        9 => too_wide(random),
        // Mostly with a list, now and then with a long one.
        10..=20 => accepted_sharing(random),
        21 => {
            let nodes = random.within(200, MOST_NODES);
            accepted_sharing_of(random, nodes)
        }
        _ => accepted(random),
    }
}

/// Tags for this table: mostly in order, and then holding its list or not; for a refused table often such as would do
/// if the table did.
fn some_tags(random: &mut Random, bytes: &[u8]) -> Vec<u8> {
    match Tree::read(bytes) {
        Ok(tree) => match random.below(9) {
            0..=1 => damaged_tags(random, &tree),
            2 => tags(random, &tree),
            3..=5 => missing_tags(random, &tree).unwrap_or_else(|| holding_tags(random, &tree)),
            _ => holding_tags(random, &tree),
        },
        Err(Refusal { number: 25, .. }) if random.once_in(2) => tags(random, &widened(bytes)),
        Err(_) if random.once_in(3) => vec![0; nodes_of(bytes).div_ceil(8)],
        Err(_) => {
            let length = random.below(66);
            random.bytes(length)
        }
    }
}

/// Mostly as many as main has parameters, for a refused table in half of the cases.
fn some_arguments(random: &mut Random, bytes: &[u8]) -> Vec<u32> {
    let count = match check(bytes) {
        Ok(()) if !random.once_in(4) => parameters_of(bytes),
        Err(_) if random.once_in(2) => parameters_of(bytes),
        _ => random.below(11),
    };
    (0..count).map(|_| random.word()).collect()
}

/// N, if it is within its limits.
pub fn nodes_of(bytes: &[u8]) -> usize {
    usize::from(Table::new(bytes).node_count()).min(MOST_NODES)
}

/// What main's record says of its parameters, whether the table is in order or not.
pub fn parameters_of(bytes: &[u8]) -> usize {
    let table = Table::new(bytes);
    table.parameter_count(Function(table.function_count())).into()
}
