//! The run on a budget, always at the first possible node. Packed sets tell it, and a step changes them by a few words:
//! no node is looked at but the step's own, those it opens or resets, and its holder.

use numbers::{BOUND, CALL, CONSTANT, IF, LET, PARAMETER, PRIMITIVE};
use numbers::{MOST_FUNCTIONS, MOST_NODES};

use crate::check::Survey;
use crate::near::Near;
use crate::net::{cell, Cell, Net, NONE, SELF_CALL};
use crate::nodes::{Rows, Standing};
use crate::plain::Plain;
use crate::state::State;
use crate::tags::checked;
use crate::{compute, refusal};

/// How a run ended.
#[derive(Clone, Copy, PartialEq, Eq, Debug)]
pub enum Ending {
    /// Main's root is done, with this value.
    Answered(u32),
    /// No step is possible.
    AtRest,
    /// As many steps were taken as the budget has.
    Spent,
}

/// Takes the first possible step again and again, up to the budget; tells how many and why it ended, or a refusal.
pub fn run(table: &[u8], tags: &[u8], state: &mut State, budget: u32) -> Result<(u32, Ending), u32> {
    run_watched(table, tags, state, budget, |_| {})
}

/// The same, telling each step's node.
pub fn run_watched(
    table: &[u8],
    tags: &[u8],
    state: &mut State,
    budget: u32,
    watch: impl FnMut(u16),
) -> Result<(u32, Ending), u32> {
    let mut net = Net::empty();
    lay_out(table, tags, state, &mut net)?;
    Ok(Runner::run::<Plain>(&net, state, budget, watch))
}

/// As `run`, with sets of no more words than there are nodes for.
pub fn run_sized(table: &[u8], tags: &[u8], state: &mut State, budget: u32) -> Result<(u32, Ending), u32> {
    run_sized_watched(table, tags, state, budget, |_| {})
}

/// The same, telling each step's node.
pub fn run_sized_watched(
    table: &[u8],
    tags: &[u8],
    state: &mut State,
    budget: u32,
    watch: impl FnMut(u16),
) -> Result<(u32, Ending), u32> {
    let mut net = Net::empty();
    lay_out(table, tags, state, &mut net)?;
    Ok(match net.nodes.div_ceil(64) {
        1 => Runner::run::<Near<1>>(&net, state, budget, watch),
        2 => Runner::run::<Near<2>>(&net, state, budget, watch),
        3 | 4 => Runner::run::<Near<4>>(&net, state, budget, watch),
        _ => Runner::run::<Near<8>>(&net, state, budget, watch),
    })
}

/// Fills an empty net, or tells a refusal of the table, the tags or the state.
fn lay_out(table: &[u8], tags: &[u8], state: &State, net: &mut Net) -> Result<(), u32> {
    let mut known = Survey::empty();
    let parts = checked(table, tags, &mut known)?;
    if !state.is_in_order(parts.nodes(), parts.functions()) {
        return Err(refusal(24, 0));
    }
    net.fill(&parts, &known);
    Ok(())
}

/// How a node stands, in a number: its status, its second phase, and above them how many of the children that it opened
/// first are not done. While it isn't busy that count says nothing.
const STATUS: u32 = 3 << 3;
const OPEN: u32 = (numbers::OPEN as u32) << 3;
const BUSY: u32 = (numbers::BUSY as u32) << 3;
const DONE: u32 = (numbers::DONE as u32) << 3;
const SECOND: u32 = 1 << 5;
const CHILD: u32 = 1 << 8;

// With a kind in the lowest bits.
const OPEN_CONSTANT: u32 = OPEN | CONSTANT as u32;
const OPEN_PARAMETER: u32 = OPEN | PARAMETER as u32;
const OPEN_BOUND: u32 = OPEN | BOUND as u32;
const BUSY_PRIMITIVE: u32 = BUSY | PRIMITIVE as u32;
const BUSY_CALL: u32 = BUSY | CALL as u32;
const BUSY_SELF_CALL: u32 = BUSY | SELF_CALL as u32;
const BUSY_IF: u32 = BUSY | IF as u32;
const BUSY_LET: u32 = BUSY | LET as u32;
const FLAGGED_PRIMITIVE: u32 = BUSY_PRIMITIVE | SECOND;
const FLAGGED_SELF_CALL: u32 = BUSY_SELF_CALL | SECOND;
const SECOND_IF: u32 = BUSY_IF | SECOND;

#[derive(Clone, Copy)]
struct Live {
    value: u32,
    mode: u32,
}

const IDLE: Live = Live { value: 0, mode: 0 };

/// A state laid out as the net is; how its nodes stand to their steps is kept beside it.
struct Runner<'a, const WORDS: usize> {
    net: &'a Net,
    rows: Rows<WORDS>,
    live: [Live; MOST_NODES],
    registers: [u32; 8 * MOST_FUNCTIONS],
    occupant: [u16; MOST_FUNCTIONS],
}

impl<'a, const WORDS: usize> Runner<'a, WORDS> {
    fn run<S: Standing<WORDS>>(net: &'a Net, state: &mut State, budget: u32, watch: impl FnMut(u16)) -> (u32, Ending) {
        let mut runner = Self::of(net, state);
        let told = runner.go::<S>(budget, watch);
        runner.put(state);
        told
    }

    #[inline(always)]
    fn of(net: &'a Net, state: &State) -> Self {
        let mut runner = Runner {
            net,
            rows: Rows::of(net),
            live: [IDLE; MOST_NODES],
            registers: [0; 8 * MOST_FUNCTIONS],
            occupant: state.occupant,
        };
        runner.registers.copy_from_slice(state.registers.as_flattened());
        for at in 0..net.nodes {
            let second = if state.second[at] { SECOND } else { 0 };
            runner.live[at].value = state.value[at];
            runner.live[at].mode += u32::from(state.status[at]) << 3 | second;
            let Cell { holder, is_last_part, .. } = net.cells[at];
            if holder != NONE && !is_last_part && state.status[at] != numbers::DONE {
                runner.live[cell(holder)].mode += CHILD;
            }
        }
        runner
    }

    /// All nodes as they stand.
    fn standing<S: Standing<WORDS>>(&self) -> S {
        let mut standing = S::NOTHING;
        for function in 0..=self.net.main {
            if self.occupant[function] != 0 {
                standing.sets().occupied(&self.rows.sites[function]);
            }
        }
        for at in 0..self.net.nodes {
            self.read(&mut standing, at);
        }
        standing
    }

    fn put(&self, state: &mut State) {
        for (at, live) in self.live[..self.net.nodes].iter().enumerate() {
            state.status[at] = ((live.mode & STATUS) >> 3) as u8;
            state.second[at] = live.mode & SECOND != 0;
            state.value[at] = live.value;
        }
        state.registers.as_flattened_mut().copy_from_slice(&self.registers);
        state.occupant = self.occupant;
    }

    fn go<S: Standing<WORDS>>(&mut self, budget: u32, mut watch: impl FnMut(u16)) -> (u32, Ending) {
        let root = cell(self.net.roots[self.net.main]);
        let mut standing = self.standing::<S>();
        let mut taken = 0;
        loop {
            if self.is_done(root) {
                return (taken, Ending::Answered(self.live[root].value));
            }
            let Some(at) = standing.first() else {
                return (taken, Ending::AtRest);
            };
            if taken == budget {
                return (taken, Ending::Spent);
            }
            self.step(&mut standing, at % MOST_NODES);
            watch(at as u16 + 1);
            taken += 1;
        }
    }

    /// Takes the step at a node, which has one.
    #[inline(always)]
    fn step(&mut self, standing: &mut impl Standing<WORDS>, at: usize) {
        let Cell { word, first, last, kind, operation, .. } = self.net.cells[at];
        let mode = self.live[at].mode;
        standing.disarm_first(at);
        match mode & STATUS | u32::from(kind) {
            OPEN_CONSTANT => self.finish(standing, at, word),
            OPEN_PARAMETER => self.finish(standing, at, self.registers[word as usize % (8 * MOST_FUNCTIONS)]),
            OPEN_BOUND => self.finish(standing, at, self.live[word as usize % MOST_NODES].value),
            BUSY_PRIMITIVE => {
                let values = [self.live[cell(first)].value, self.live[cell(last)].value];
                self.finish(standing, at, self.net.cells[at].keep(compute(operation, values)));
            }
            BUSY_IF | BUSY_LET => {
                let part = self.last_part(at);
                if mode & SECOND != 0 {
                    self.finish(standing, at, self.live[part].value);
                } else {
                    self.live[at].mode |= SECOND;
                    self.open(standing, part);
                }
            }
            BUSY_SELF_CALL => self.restart(standing, at),
            BUSY_CALL if mode & SECOND != 0 => self.leave(standing, at),
            BUSY_CALL => self.enter(standing, at),
            _ => self.begin(standing, at),
        }
    }

    fn is_done(&self, at: usize) -> bool {
        self.live[at].mode & STATUS == DONE
    }

    /// The body of a let, or the branch that an if's condition chooses as it is.
    #[inline(always)]
    fn last_part(&self, at: usize) -> usize {
        let Cell { first, last, kind, .. } = self.net.cells[at];
        let is_then = kind == IF && self.live[cell(first)].value != 0;
        cell(if is_then { self.net.cells[cell(first)].next } else { last })
    }

    #[inline(always)]
    fn begin(&mut self, standing: &mut impl Standing<WORDS>, at: usize) {
        let Cell { first, opens, .. } = self.net.cells[at];
        let second = self.live[at].mode & SECOND;
        self.live[at].mode = BUSY | second | (u32::from(opens) * CHILD);
        let mut child = first;
        for _ in 0..opens {
            self.open(standing, cell(child));
            child = self.net.cells[cell(child)].next;
        }
        // A call without arguments may go on, and so may one that has the flag.
        if opens == 0 || second != 0 {
            self.read(standing, at);
        }
    }

    #[inline(always)]
    fn open(&mut self, standing: &mut impl Standing<WORDS>, at: usize) {
        let mode = self.live[at].mode;
        self.live[at].mode = mode & SECOND | OPEN;
        standing.arm(at);
        // From a start no node is opened that is busy.
        if mode & STATUS == BUSY {
            *standing = standing.without_call(at);
        }
    }

    /// Puts a node that is in none of the sets where it belongs.
    #[inline(always)]
    fn read(&self, standing: &mut impl Standing<WORDS>, at: usize) {
        let Cell { kind, word, .. } = self.net.cells[at];
        let mode = self.live[at].mode;
        let (is_second, is_ready) = (mode & SECOND != 0, mode < CHILD);
        let is_armed = match mode & STATUS | u32::from(kind) {
            BUSY_PRIMITIVE | BUSY_SELF_CALL => is_ready,
            BUSY_IF | BUSY_LET if is_second => self.is_done(self.last_part(at)),
            BUSY_IF | BUSY_LET => is_ready,
            BUSY_CALL if is_second => {
                standing.sets().inside.add(at);
                self.is_done(cell(self.net.roots[word as usize % MOST_FUNCTIONS]))
            }
            BUSY_CALL => {
                if is_ready {
                    standing.wait(at);
                }
                false
            }
            _ => mode & STATUS == OPEN,
        };
        if is_armed {
            standing.arm(at);
        }
    }

    /// The same for one that may be armed. By value, so that sets in registers stay there.
    #[cold]
    fn read_anew<S: Standing<WORDS>>(&self, mut standing: S, at: usize) -> S {
        standing.disarm(at);
        self.read(&mut standing, at);
        standing
    }

    #[inline(always)]
    fn finish(&mut self, standing: &mut impl Standing<WORDS>, at: usize, value: u32) {
        let Cell { holder, owner, is_last_part, .. } = self.net.cells[at];
        self.live[at] = Live { value, mode: DONE };
        if holder == NONE {
            standing.root_done(&self.rows.sites[usize::from(owner) % MOST_FUNCTIONS]);
        } else if is_last_part {
            self.last_part_done(standing, cell(holder), at);
        } else {
            self.child_done(standing, cell(holder));
        }
    }

    /// One of the children that a node opened first is done.
    #[inline(always)]
    fn child_done(&mut self, standing: &mut impl Standing<WORDS>, at: usize) {
        let mode = self.live[at].mode.wrapping_sub(CHILD);
        self.live[at].mode = mode;
        match mode | u32::from(self.net.cells[at].kind) {
            BUSY_PRIMITIVE | BUSY_IF | BUSY_LET | BUSY_SELF_CALL => standing.arm(at),
            BUSY_CALL => standing.wait(at),
            FLAGGED_PRIMITIVE | FLAGGED_SELF_CALL => standing.arm(at),
            // From a start no condition is done while its if is in second phase.
            stands if stands % CHILD == SECOND_IF => *standing = self.read_anew(*standing, at),
            _ => {}
        }
    }

    /// A branch or body is done.
    #[inline(always)]
    fn last_part_done(&mut self, standing: &mut impl Standing<WORDS>, at: usize, part: usize) {
        if self.live[at].mode & (STATUS | SECOND) == BUSY | SECOND && self.last_part(at) == part {
            standing.arm(at);
        }
    }

    #[inline(always)]
    fn leave(&mut self, standing: &mut impl Standing<WORDS>, at: usize) {
        let callee = self.net.cells[at].word as usize % MOST_FUNCTIONS;
        let answer = self.live[cell(self.net.roots[callee])].value;
        self.occupant[callee] = 0;
        standing.sets().inside.remove(at);
        standing.freed(&self.rows.sites[callee]);
        self.finish(standing, at, self.net.cells[at].keep(answer));
    }

    #[inline(always)]
    fn enter(&mut self, standing: &mut impl Standing<WORDS>, at: usize) {
        let callee = self.net.cells[at].word as usize % MOST_FUNCTIONS;
        self.reset(standing, callee, at);
        self.occupant[callee] = at as u16 + 1;
        self.live[at].mode |= SECOND;
        standing.sets().waiting.remove(at);
        standing.sets().inside.add(at);
        standing.sets().occupied(&self.rows.sites[callee]);
    }

    #[inline(always)]
    fn restart(&mut self, standing: &mut impl Standing<WORDS>, at: usize) {
        self.reset(standing, usize::from(self.net.cells[at].owner) % MOST_FUNCTIONS, at);
    }

    /// Makes a function's body ready for the arguments of a call, and opens its root.
    #[inline(always)]
    fn reset(&mut self, standing: &mut impl Standing<WORDS>, function: usize, call: usize) {
        let root = cell(self.net.roots[function]);
        let mut arguments = [0; 8];
        let mut child = self.net.cells[call].first;
        for argument in &mut arguments {
            if child == NONE {
                break;
            }
            *argument = self.net.cells[root].keep(self.live[cell(child)].value);
            child = self.net.cells[cell(child)].next;
        }
        self.registers[8 * function..8 * function + 8].copy_from_slice(&arguments);
        let members = self.net.begin[function].into()..self.net.begin[function + 1].into();
        for member in &self.net.members[members] {
            self.live[cell(*member)] = IDLE;
        }
        standing.reset(&self.rows.members[function], &self.rows.sites[function]);
        self.live[root].mode = OPEN;
        standing.arm(root);
    }
}
