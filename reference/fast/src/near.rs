//! The cleverer way to keep the sets, which the benchmark shows beside the plain one without a bound: of as many words
//! as a design needs, so that those of a small one fit into registers, the armed nodes of the low word kept apart.

use crate::nodes::{Nodes, Sets, Standing};

#[derive(Clone, Copy)]
pub struct Near<const WORDS: usize> {
    /// But for the armed nodes of the low word, which are in `near`.
    sets: Sets<WORDS>,
    /// No possible node is in a word before this one.
    low: usize,
    /// The armed nodes of the low word: most steps change these alone, and the next step needn't wait for memory.
    near: u64,
}

impl<const WORDS: usize> Near<WORDS> {
    /// Makes another word the low one.
    #[inline(always)]
    fn go_to(&mut self, word: usize) {
        self.put_near();
        self.low = word;
        self.near = self.sets.armed.0[word % WORDS];
    }

    #[inline(always)]
    fn put_near(&mut self) {
        self.sets.armed.0[self.low % WORDS] = self.near;
    }

    /// Looks for the first possible node from the first word on, the armed nodes being whole.
    #[inline(always)]
    fn go_to_first_word(&mut self) {
        self.low = 0;
        self.near = self.sets.armed.0[0];
    }
}

impl<const WORDS: usize> Standing<WORDS> for Near<WORDS> {
    const NOTHING: Self = Near { sets: Sets::NOTHING, low: 0, near: 0 };

    #[inline(always)]
    fn sets(&mut self) -> &mut Sets<WORDS> {
        &mut self.sets
    }

    #[inline(always)]
    fn first(&mut self) -> Option<usize> {
        loop {
            let possible = self.near | self.sets.entering(self.low);
            if possible != 0 {
                return Some(64 * self.low + possible.trailing_zeros() as usize);
            }
            if self.low + 1 >= WORDS {
                return None;
            }
            self.go_to(self.low + 1);
        }
    }

    #[inline(always)]
    fn arm(&mut self, at: usize) {
        let word = at / 64 % WORDS;
        if word == self.low {
            self.near |= 1 << (at % 64);
        } else {
            self.sets.armed.add(at);
            if word < self.low {
                self.go_to(word);
            }
        }
    }

    #[inline(always)]
    fn disarm_first(&mut self, at: usize) {
        self.near &= !(1 << (at % 64));
    }

    fn disarm(&mut self, at: usize) {
        self.put_near();
        self.sets.armed.remove(at);
        self.go_to_first_word();
    }

    #[inline(always)]
    fn wait(&mut self, at: usize) {
        self.sets.waiting.add(at);
        if at / 64 % WORDS < self.low {
            self.go_to(at / 64 % WORDS);
        }
    }

    #[inline(always)]
    fn root_done(&mut self, sites: &Nodes<WORDS>) {
        self.put_near();
        self.sets.root_done(sites);
        self.go_to_first_word();
    }

    #[inline(always)]
    fn freed(&mut self, sites: &Nodes<WORDS>) {
        self.put_near();
        self.sets.freed(sites);
        self.go_to_first_word();
    }

    #[inline(always)]
    fn reset(&mut self, members: &Nodes<WORDS>, sites: &Nodes<WORDS>) {
        self.put_near();
        self.sets.reset(members, sites);
        self.near = self.sets.armed.0[self.low % WORDS];
    }
}
