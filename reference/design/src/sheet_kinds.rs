//! What a sheet may show, so that tests can count how often it occurs.

use std::collections::BTreeMap;

use numbers::{MOST_PAGES, PAGE_LINES};

use crate::difference::{ensure, Outcome};
use crate::list::Record;
use crate::sheet::{places, Place};

#[derive(Default)]
pub struct SheetKinds {
    counts: BTreeMap<String, usize>,
}

impl SheetKinds {
    /// Notes all kinds, also those that the sheet of this list does not show.
    pub fn note(&mut self, list: &[Record]) {
        for (kind, is_there) in kinds(list) {
            *self.counts.entry(kind).or_insert(0) += usize::from(is_there);
        }
    }

    pub fn add(&mut self, other: SheetKinds) {
        for (kind, count) in other.counts {
            *self.counts.entry(kind).or_insert(0) += count;
        }
    }

    /// Prints all counts; fails if a kind occurred less often than wanted.
    pub fn often(&self, fewest: usize) -> Outcome {
        println!("{:#?}", self.counts);
        ensure(!self.counts.is_empty(), || "no sheet".to_string())?;
        let rare: Vec<_> = self.counts.iter().filter(|(_, count)| **count < fewest).collect();
        ensure(rare.is_empty(), || format!("rare, {fewest} wanted: {rare:?}"))
    }
}

fn kinds(list: &[Record]) -> Vec<(String, bool)> {
    let places = places(list);
    let end = places.last().copied();
    let pages = end.map_or(1, |end| end.page);
    let mut found = Vec::new();
    for count in [0, 2, 3, 22, 23, 24, 46, 47, 510] {
        found.push((format!("{count} calls"), list.len() == count));
    }
    for count in [1, 2, 3, 10, MOST_PAGES - 1, MOST_PAGES] {
        found.push((format!("{count} pages"), pages == count));
    }
    let pairs = || list.windows(2).zip(places.windows(2));
    for (which, is_such) in [("first", is_first as fn(Place) -> bool), ("later", is_later)] {
        for line in PAGE_LINES - 2..=PAGE_LINES {
            let ends = end.is_some_and(|end| is_such(end) && end.line == line);
            found.push((format!("the list ends at line {line} of a {which} page"), ends));
        }
        for left in 0..=3 {
            let changes = |(calls, places): (&[Record], &[Place])| {
                is_such(places[0]) && places[0].line + left == PAGE_LINES && calls[0].callee != calls[1].callee
            };
            found.push((format!("a change with {left} lines left on a {which} page"), pairs().any(changes)));
        }
        let goes_on = |(calls, places): (&[Record], &[Place])| {
            is_such(places[0]) && places[0].page != places[1].page && calls[0].callee == calls[1].callee
        };
        found.push((format!("a resource goes on after a {which} page"), pairs().any(goes_on)));
    }
    let calls_of = |record: &Record| list.iter().filter(|other| other.callee == record.callee).count();
    found.push(("a resource of one call".to_string(), list.iter().any(|record| calls_of(record) == 1)));
    found.push(("a resource of over a page".to_string(), list.iter().any(|record| calls_of(record) > PAGE_LINES)));
    found.push(("several callers".to_string(), list.windows(2).any(|pair| pair[0].caller != pair[1].caller)));
    found
}

fn is_first(place: Place) -> bool {
    place.page == 1
}

fn is_later(place: Place) -> bool {
    place.page > 1
}
