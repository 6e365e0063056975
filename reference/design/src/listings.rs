//! Tables whose arbiter list has so many calls of each function as are wanted, for sheets that end where they should.
//!
//! Not to be had: a lone listed call is listed for being reached twice, so the function that it stands in, which is
//! higher than its callee, is on the list too. So the highest resource has two listed calls or more, and no list is of
//! one call. Main is never a resource, its root is never listed, and function 1 calls nothing: there are at most 31
//! resources, and 510 listed calls.

use std::collections::VecDeque;

use numbers::{BESIDE, CALL, CONSTANT, PRIMITIVE};
use numbers::{MOST_FUNCTIONS, MOST_NODES, PAGE_LINES};

use crate::damage::damaged;
use crate::draft::{Draft, Head};
use crate::generator::{accepted, accepted_sharing, numbered};
use crate::random::Random;
use crate::towers::{any_comb, any_deep, any_tower};

/// Children of a node that holds others.
const CHILDREN: usize = 8;

/// Calls on a page without a line of spaces.
const CALLS_OF_A_PAGE: usize = PAGE_LINES - 1;

/// The functions below main, and what main calls.
#[derive(Default)]
struct Listing {
    draft: Draft,
    callees: Vec<usize>,
}

impl Listing {
    /// Adds a function that has no parameters, or has those of a holder, and calls the one given or nothing.
    fn function(&mut self, parameters: usize, callee: Option<usize>) {
        let root = match callee {
            Some(callee) => self.draft.add(CALL, 0, callee as u32),
            None => self.draft.add(CONSTANT, 0, 1),
        };
        self.draft.functions.push(Head::new(parameters, root));
    }

    /// Has main call a function so many times.
    fn calls(&mut self, callee: usize, count: usize) {
        self.callees.extend(std::iter::repeat_n(callee, count));
    }

    /// Main runs all its calls side by side, below nodes of this kind that hold eight each.
    fn main(mut self, random: &mut Random, (kind, extra, word): (u8, u8, u32)) -> Vec<u8> {
        let root = self.draft.add(PRIMITIVE, BESIDE, 0);
        self.draft.functions.push(Head::new(0, root));
        // A holder takes one place and gives eight; they come first, so that two of them run side by side.
        let holders = self.callees.len().saturating_sub(CHILDREN).div_ceil(CHILDREN - 1);
        let mut open = VecDeque::from([root]);
        for _ in 0..holders {
            let holder = self.below(&mut open, kind, extra, word);
            open.push_back(holder);
        }
        shuffle(random, &mut self.callees);
        for callee in std::mem::take(&mut self.callees) {
            self.below(&mut open, CALL, 0, callee as u32);
        }
        if self.draft.items[root].children.is_empty() {
            self.below(&mut open, CONSTANT, 0, 1);
        }
        numbered(random, &self.draft)
    }

    /// Adds a node below the first open one that has room.
    fn below(&mut self, open: &mut VecDeque<usize>, kind: u8, extra: u8, word: u32) -> usize {
        if self.draft.items[open[0]].children.len() == CHILDREN {
            open.pop_front();
        }
        let node = self.draft.add(kind, extra, word);
        self.draft.items[open[0]].children.push(node);
        node
    }
}

fn shuffle(random: &mut Random, callees: &mut [usize]) {
    for last in (1..callees.len()).rev() {
        callees.swap(last, random.below(last + 1));
    }
}

/// A table with so many listed calls of each function from the first on, and main after them. A function without any is
/// called too, by a call that meets no other. The last count that is not 0 is 2 or more; about 400 calls fit.
pub fn listing(random: &mut Random, counts: &[usize]) -> Vec<u8> {
    let mut made = Listing::default();
    // The resource below, with how many calls of it are still to be made.
    let mut below: Option<(usize, usize)> = None;
    for (function, count) in (1..).zip(counts.iter().copied()) {
        if count == 0 {
            made.function(0, None);
            made.calls(function, 1);
            continue;
        }
        match below {
            // A lone call has to stand in the body of a resource: main would reach it but once.
            Some((callee, calls)) if calls == 1 || random.once_in(2) => {
                made.function(0, Some(callee));
                made.calls(callee, calls - 1);
            }
            Some((callee, calls)) => {
                made.function(0, None);
                made.calls(callee, calls);
            }
            None => made.function(0, None),
        }
        below = Some((function, count));
    }
    if let Some((callee, calls)) = below {
        made.calls(callee, calls);
    }
    made.main(random, (PRIMITIVE, BESIDE, 0))
}

/// 512 nodes and as many listed calls as there can be, 510. Each function but the first calls the one below it, and the
/// highest below main has eight parameters and holds calls as its arguments. With 7, 15, 23 or 31 resources all of its
/// calls have eight.
pub fn longest(random: &mut Random, resources: usize) -> Vec<u8> {
    let mut made = Listing::default();
    for function in 1..=resources {
        let parameters = if function == resources { CHILDREN } else { 0 };
        made.function(parameters, (function > 1).then(|| function - 1));
    }
    // Each holder has eight of the calls below it, and eight are left for main's root.
    let calls = MOST_NODES - resources - 1;
    let holders = (calls - CHILDREN) / CHILDREN;
    made.callees = (1..resources).cycle().take(calls - holders).collect();
    made.main(random, (CALL, 0, resources as u32))
}

/// Counts for `listing`: each number of calls up to some pages, two resources that change anywhere on two pages, and
/// ends and changes about the first and the last line of page ten, whose number is the first of two digits.
pub fn page_ends() -> Vec<Vec<usize>> {
    let mut all = vec![vec![], vec![0]];
    all.extend((2..=3 * CALLS_OF_A_PAGE + 2).map(|count| vec![count]));
    for first in 1..=2 * CALLS_OF_A_PAGE + 1 {
        all.extend([2, 3, 20, 21, 22, 23, 24].map(|second| vec![first, second]));
    }
    for full in [9 * CALLS_OF_A_PAGE, 10 * CALLS_OF_A_PAGE] {
        for first in full - 1..=full + 1 {
            all.extend([vec![first], vec![first, 2]]);
        }
    }
    all
}

/// A table whose list ends, and changes the resource, often near the end of a page.
pub fn any_listing(random: &mut Random) -> Vec<u8> {
    let resources = random.pick(&[1, 2, 3, 5, 10, MOST_FUNCTIONS - 1]);
    let mut left = random.within(2, 380);
    let mut counts = Vec::new();
    // Lines of the page that are taken, without the title.
    let mut taken = 0;
    while counts.len() < resources && left >= 2 {
        if random.once_in(12) {
            counts.push(0);
            continue;
        }
        let begin = if taken == 0 || taken + 1 >= CALLS_OF_A_PAGE { 0 } else { taken + 1 };
        let wanted = match random.below(4) {
            0 => random.within(1, 9),
            1 => random.within(1, 40),
            // So that this page, or the next, is left with no line to three.
            _ => (CALLS_OF_A_PAGE * random.within(1, 2)).saturating_sub(begin + random.below(4)),
        };
        let count = wanted.clamp(1, left);
        counts.push(count);
        taken = (begin + count - 1) % CALLS_OF_A_PAGE + 1;
        left -= count;
    }
    if let Some(last) = counts.iter_mut().rfind(|count| **count > 0) {
        *last = (*last).max(2);
    }
    listing(random, &counts)
}

/// Tables to compare sheets on, without end: all of `page_ends` by turns, random ones, and bad ones.
pub struct SheetTables {
    random: Random,
    ends: std::iter::Cycle<std::vec::IntoIter<Vec<usize>>>,
    round: usize,
}

impl SheetTables {
    pub fn new(seed: u64) -> SheetTables {
        SheetTables { random: Random::new(seed), ends: page_ends().into_iter().cycle(), round: 0 }
    }
}

impl Iterator for SheetTables {
    type Item = Vec<u8>;

    fn next(&mut self) -> Option<Vec<u8>> {
        let random = &mut self.random;
        self.round += 1;
        Some(match self.round % 20 {
            0..=3 => listing(random, &self.ends.next()?),
            4..=7 => any_listing(random),
            8..=10 => accepted_sharing(random),
            11..=12 => accepted(random),
            13 => random.pick(&[any_tower, any_deep, any_comb])(random),
            14 if random.once_in(2) => {
                let resources = random.pick(&[7, 15, 23, 31]);
                longest(random, resources)
            }
            // A long list of a table that a single byte may have spoilt.
            14 => {
                let mut bytes = any_listing(random);
                let at = random.below(bytes.len());
                bytes[at] = random.number() as u8;
                bytes
            }
            _ => damaged(random),
        })
    }
}
