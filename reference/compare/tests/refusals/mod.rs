//! How often each refusal of a table occurred, so that no test passes idle.

use std::collections::BTreeMap;

use design::difference::{ensure, Outcome};

#[derive(Default)]
pub struct Refusals {
    /// By refusal and whether a node is named; refusal 0 stands for accepted.
    counts: BTreeMap<(u32, bool), usize>,
}

impl Refusals {
    /// An answer as the check gives it.
    pub fn note(&mut self, answer: u32) {
        *self.counts.entry((answer / 65536, answer & 65535 != 0)).or_insert(0) += 1;
    }

    /// Prints all counts; fails if too few are accepted, or if a cause of a refusal occurred less often than wanted.
    pub fn often(&self, accepted: usize, fewest: usize) -> Outcome {
        println!("{:?}", self.counts);
        let at_place_0 = (1..=5).map(|number| (number, false));
        let at_a_node = (4..=9).chain([25]).map(|number| (number, true));
        let refused = at_place_0.chain(at_a_node).map(|cause| (cause, fewest));
        for (cause, fewest) in refused.chain([((0, false), accepted)]) {
            let count = self.counts.get(&cause).copied().unwrap_or(0);
            ensure(count >= fewest, || format!("{cause:?} in {count} cases, wanted {fewest}: {:?}", self.counts))?;
        }
        Ok(())
    }
}
