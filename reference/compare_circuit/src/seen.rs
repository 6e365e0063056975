//! How often each kind of case occurred, so that no test passes idle.

use std::collections::BTreeMap;

use design::circuit::Answer;
use design::difference::{ensure, Outcome};

#[derive(Default)]
pub struct Seen {
    counts: BTreeMap<String, usize>,
}

impl Seen {
    pub fn note(&mut self, kind: &str) {
        self.note_if(kind, true);
    }

    /// A kind that never occurs is shown too.
    pub fn note_if(&mut self, kind: &str, there: bool) {
        *self.counts.entry(kind.to_string()).or_insert(0) += usize::from(there);
    }

    pub fn refused(&mut self, number: u16) {
        self.note(&refused(number));
    }

    pub fn answer(&mut self, answer: Answer) {
        match answer {
            Answer::Taken => self.note("taken"),
            Answer::Answered(_) => self.note("answered"),
            Answer::Refused(refusal) => self.refused(refusal.number),
        }
    }

    fn count(&self, kind: &str) -> usize {
        self.counts.get(kind).copied().unwrap_or(0)
    }

    /// Prints all counts; fails if one of these kinds occurred less often than wanted.
    pub fn often(&self, test: &str, wanted: &[(&str, usize)]) -> Outcome {
        println!("{test}: {:?}", self.counts);
        self.at_least(test, wanted)
    }

    /// The same without the print.
    pub fn at_least(&self, test: &str, wanted: &[(&str, usize)]) -> Outcome {
        for (kind, fewest) in wanted {
            let count = self.count(kind);
            ensure(count >= *fewest, || {
                format!("{test}: {kind} in {count} cases, wanted {fewest}: {:?}", self.counts)
            })?;
        }
        Ok(())
    }

    /// The same for refusals by number.
    pub fn refused_often(&self, test: &str, numbers: impl IntoIterator<Item = u16>, fewest: usize) -> Outcome {
        numbers.into_iter().try_for_each(|number| self.at_least(test, &[(&refused(number), fewest)]))
    }
}

fn refused(number: u16) -> String {
    format!("refused {number}")
}
