//! The plain way to keep the sets, which the benchmark's bound speaks of: always of eight words, which hold any design,
//! as the proved code has them, and nothing kept apart.

use numbers::MOST_NODES;

use crate::nodes::{Nodes, Sets, Standing};

const WORDS: usize = MOST_NODES / 64;

#[derive(Clone, Copy)]
pub struct Plain {
    sets: Sets<WORDS>,
    /// No possible node is in a word before this one.
    low: usize,
}

impl Standing<WORDS> for Plain {
    const NOTHING: Self = Plain { sets: Sets::NOTHING, low: 0 };

    #[inline(always)]
    fn sets(&mut self) -> &mut Sets<WORDS> {
        &mut self.sets
    }

    #[inline(always)]
    fn first(&mut self) -> Option<usize> {
        while self.low < WORDS {
            let possible = self.sets.armed.0[self.low] | self.sets.entering(self.low);
            if possible != 0 {
                return Some(64 * self.low + possible.trailing_zeros() as usize);
            }
            self.low += 1;
        }
        None
    }

    #[inline(always)]
    fn arm(&mut self, at: usize) {
        self.sets.armed.add(at);
        self.low = self.low.min(at / 64);
    }

    #[inline(always)]
    fn disarm_first(&mut self, at: usize) {
        self.sets.armed.remove(at);
    }

    #[inline(always)]
    fn disarm(&mut self, at: usize) {
        self.sets.armed.remove(at);
    }

    #[inline(always)]
    fn wait(&mut self, at: usize) {
        self.sets.waiting.add(at);
        self.low = self.low.min(at / 64);
    }

    #[inline(always)]
    fn root_done(&mut self, sites: &Nodes<WORDS>) {
        self.low = 0;
        self.sets.root_done(sites);
    }

    #[inline(always)]
    fn freed(&mut self, sites: &Nodes<WORDS>) {
        self.low = 0;
        self.sets.freed(sites);
    }

    #[inline(always)]
    fn reset(&mut self, members: &Nodes<WORDS>, sites: &Nodes<WORDS>) {
        self.sets.reset(members, sites);
    }
}
