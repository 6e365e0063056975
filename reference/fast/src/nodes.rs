//! How the nodes of a state stand to their steps: packed sets of nodes, and what a runner asks of those who keep them.

use numbers::{CALL, MOST_FUNCTIONS};

use crate::net::Net;

/// A set: the node of cell n is bit n % 64 of word n / 64.
#[derive(Clone, Copy)]
pub struct Nodes<const WORDS: usize>(pub [u64; WORDS]);

impl<const WORDS: usize> Nodes<WORDS> {
    const NONE: Self = Nodes([0; WORDS]);

    #[inline(always)]
    pub fn add(&mut self, at: usize) {
        self.0[at / 64 % WORDS] |= 1 << (at % 64);
    }

    #[inline(always)]
    pub fn remove(&mut self, at: usize) {
        self.0[at / 64 % WORDS] &= !(1 << (at % 64));
    }
}

/// What belongs to each function.
pub struct Rows<const WORDS: usize> {
    /// Its nodes.
    pub members: [Nodes<WORDS>; MOST_FUNCTIONS],
    /// The calls of it, no self calls.
    pub sites: [Nodes<WORDS>; MOST_FUNCTIONS],
}

impl<const WORDS: usize> Rows<WORDS> {
    pub fn of(net: &Net) -> Self {
        let mut rows = Rows { members: [Nodes::NONE; MOST_FUNCTIONS], sites: [Nodes::NONE; MOST_FUNCTIONS] };
        for (at, cell) in net.cells[..net.nodes].iter().enumerate() {
            rows.members[usize::from(cell.owner) % MOST_FUNCTIONS].add(at);
            if cell.kind == CALL {
                rows.sites[cell.word as usize % MOST_FUNCTIONS].add(at);
            }
        }
        rows
    }
}

/// Sets that say exactly how each node stands, in any state.
#[derive(Clone, Copy)]
pub struct Sets<const WORDS: usize> {
    /// Nodes with a step that is no entering.
    pub armed: Nodes<WORDS>,
    /// Busy calls in first phase with their arguments done.
    pub waiting: Nodes<WORDS>,
    /// Busy calls in second phase.
    pub inside: Nodes<WORDS>,
    /// Calls of occupied functions.
    pub held: Nodes<WORDS>,
}

/// Changes of many nodes pass over the words in which a function has none: most functions are in few.
impl<const WORDS: usize> Sets<WORDS> {
    pub const NOTHING: Self = Sets { armed: Nodes::NONE, waiting: Nodes::NONE, inside: Nodes::NONE, held: Nodes::NONE };

    /// The nodes of a word that wait and aren't held.
    #[inline(always)]
    pub fn entering(&self, word: usize) -> u64 {
        self.waiting.0[word % WORDS] & !self.held.0[word % WORDS]
    }

    /// A root is done: the calls inside its function have a step.
    #[inline(always)]
    pub fn root_done(&mut self, sites: &Nodes<WORDS>) {
        for word in 0..WORDS {
            if sites.0[word] != 0 {
                self.armed.0[word] |= self.inside.0[word] & sites.0[word];
            }
        }
    }

    /// A function is free.
    #[inline(always)]
    pub fn freed(&mut self, sites: &Nodes<WORDS>) {
        for word in 0..WORDS {
            if sites.0[word] != 0 {
                self.held.0[word] &= !sites.0[word];
            }
        }
    }

    /// A function is occupied.
    #[inline(always)]
    pub fn occupied(&mut self, sites: &Nodes<WORDS>) {
        for word in 0..WORDS {
            if sites.0[word] != 0 {
                self.held.0[word] |= sites.0[word];
            }
        }
    }

    /// The nodes of a function are idle, and no call inside has a step. Whether its own calls are held doesn't change.
    #[inline(always)]
    pub fn reset(&mut self, members: &Nodes<WORDS>, sites: &Nodes<WORDS>) {
        for word in 0..WORDS {
            if members.0[word] | sites.0[word] != 0 {
                let others = !members.0[word];
                self.armed.0[word] &= others & !(self.inside.0[word] & sites.0[word]);
                self.waiting.0[word] &= others;
                self.inside.0[word] &= others;
            }
        }
    }
}

/// The sets and where in them the first possible node is looked for. What can bring that node forward or takes armed
/// nodes away is asked here; all else is changed in the sets themselves.
pub trait Standing<const WORDS: usize>: Copy {
    const NOTHING: Self;

    fn sets(&mut self) -> &mut Sets<WORDS>;

    /// The first possible node: it is armed, or waits and isn't held.
    fn first(&mut self) -> Option<usize>;

    fn arm(&mut self, at: usize);

    /// The first possible node is armed no longer, if it was.
    fn disarm_first(&mut self, at: usize);

    /// Likewise any node.
    fn disarm(&mut self, at: usize);

    fn wait(&mut self, at: usize);

    // As the sets have them.
    fn root_done(&mut self, sites: &Nodes<WORDS>);
    fn freed(&mut self, sites: &Nodes<WORDS>);
    fn reset(&mut self, members: &Nodes<WORDS>, sites: &Nodes<WORDS>);

    /// For a call that is busy no longer, though it was not done. By value, so that sets in registers stay there.
    #[cold]
    fn without_call(mut self, at: usize) -> Self {
        self.sets().waiting.remove(at);
        self.sets().inside.remove(at);
        self
    }
}
