//! How often each kind of case occurred, so that tests can want each of them often enough, or never.

use std::collections::BTreeMap;

use crate::difference::{ensure, Outcome};

#[derive(Default)]
pub struct Kinds {
    counts: BTreeMap<&'static str, usize>,
}

impl Kinds {
    /// What one step came to.
    pub fn note(&mut self, found: Vec<&'static str>) {
        for kind in found {
            *self.counts.entry(kind).or_insert(0) += 1;
        }
    }

    pub fn add(&mut self, other: Kinds) {
        for (kind, count) in other.counts {
            *self.counts.entry(kind).or_insert(0) += count;
        }
    }

    fn count(&self, kind: &str) -> usize {
        self.counts.get(kind).copied().unwrap_or(0)
    }

    /// Whether one of these kinds occurred.
    pub fn any(&self, kinds: &[&str]) -> bool {
        kinds.iter().any(|kind| self.count(kind) > 0)
    }

    /// Prints all counts; fails if one of these kinds occurred less often than wanted.
    pub fn often(&self, wanted: &[&str], fewest: usize) -> Outcome {
        println!("{:#?}", self.counts);
        let rare: Vec<(&&str, usize)> =
            wanted.iter().map(|kind| (kind, self.count(kind))).filter(|(_, count)| *count < fewest).collect();
        ensure(rare.is_empty(), || format!("rare, {fewest} wanted: {rare:?}"))
    }

    /// Fails if one of these kinds occurred less often than its own number.
    pub fn at_least(&self, wanted: &[(&str, usize)]) -> Outcome {
        for (kind, fewest) in wanted {
            let count = self.count(kind);
            ensure(count >= *fewest, || format!("{kind} in {count} cases, wanted {fewest}"))?;
        }
        Ok(())
    }

    /// Fails if one of these kinds occurred.
    pub fn never(&self, kinds: &[&str]) -> Outcome {
        let met: Vec<&&str> = kinds.iter().filter(|kind| self.count(kind) > 0).collect();
        ensure(met.is_empty(), || format!("met, none wanted: {met:?}"))
    }
}
