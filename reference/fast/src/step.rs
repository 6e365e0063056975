//! A start and a single step, with nothing kept from call to call: table, tags and state are looked at each time.

use numbers::{BOUND, CALL, CONSTANT, IF, LET, PARAMETER, PRIMITIVE};
use numbers::{BUSY, OPEN};

use crate::check::Survey;
use crate::reach::Reach;
use crate::sets::untagged;
use crate::state::{Lent, State};
use crate::tags::{checked, checked_reach};
use crate::{compute, first, next, refusal, word, Parts};

const ANSWERED: u64 = 1 << 32;
const REFUSED: u64 = 2 << 32;

/// Puts the state at its start; returns 0, or a refusal and then keeps the state.
pub fn start(table: &[u8], tags: &[u8], arguments: &[u32], state: &mut State) -> u32 {
    match begun(table, tags, arguments) {
        Ok(begun) => {
            begun.put(state);
            0
        }
        Err(refused) => refused,
    }
}

/// The same for a state that is lent as five arrays: it is made apart and copied into them.
pub fn start_lent(table: &[u8], tags: &[u8], arguments: &[u32], lent: &mut Lent) -> u32 {
    match begun(table, tags, arguments) {
        Ok(begun) => {
            let mut state = State::zero();
            begun.put(&mut state);
            lent.put(&state);
            0
        }
        Err(refused) => refused,
    }
}

/// What a start puts into the zero state.
struct Begun<'a> {
    main: usize,
    root: usize,
    mask: u32,
    arguments: &'a [u32],
}

impl Begun<'_> {
    fn put(&self, state: &mut State) {
        *state = State::zero();
        for (register, argument) in state.registers[self.main - 1].iter_mut().zip(self.arguments) {
            *register = *argument & self.mask;
        }
        state.status[self.root - 1] = OPEN;
    }
}

/// The list is made last, once nothing else is refused.
fn begun<'a>(table: &[u8], tags: &[u8], arguments: &'a [u32]) -> Result<Begun<'a>, u32> {
    let mut reach = Reach::unknown();
    let parts = checked_reach(table, tags, &mut Survey::empty(), &mut reach)?;
    let main = parts.functions();
    if arguments.len() != parts.parameters(main) {
        return Err(refusal(11, 0));
    }
    match untagged(parts, reach.reached, tags) {
        None => Ok(Begun { main, root: parts.root(main), mask: parts.mask(main), arguments }),
        Some(place) => Err(refusal(26, place)),
    }
}

/// Asks for a step at a node, given by any number. 0 says taken; 2^32 and a value answered; 2 * 2^32 and a refusal
/// refused, and then the state is kept.
pub fn step(table: &[u8], tags: &[u8], state: &mut State, node: u16) -> u64 {
    let mut known = Survey::empty();
    let asked = match checked(table, tags, &mut known) {
        Ok(parts) => Asked { parts, known: &known, tags, node: node.into() },
        Err(refused) => return REFUSED | u64::from(refused),
    };
    asked.answer(state)
}

/// The same for a state that is lent as five arrays: they are copied, and copied back once the step is taken.
pub fn step_lent(table: &[u8], tags: &[u8], lent: &mut Lent, node: u16) -> u64 {
    let mut state = lent.get();
    let answer = step(table, tags, &mut state, node);
    if answer < REFUSED {
        lent.put(&state);
    }
    answer
}

struct Asked<'a> {
    parts: Parts<'a>,
    known: &'a Survey,
    tags: &'a [u8],
    node: usize,
}

impl Asked<'_> {
    fn answer(&self, state: &mut State) -> u64 {
        if self.node == 0 || self.node > self.parts.nodes() {
            return REFUSED | u64::from(refusal(12, 0));
        }
        if !state.is_in_order(self.parts.nodes(), self.parts.functions()) {
            return REFUSED | u64::from(refusal(24, 0));
        }
        let main_root = self.parts.root(self.parts.functions());
        let number = if state.is_done(main_root) { 20 } else { self.take(state) };
        if number != 0 {
            return REFUSED | u64::from(refusal(number, self.node as u32));
        }
        match state.is_done(main_root) {
            true => ANSWERED | u64::from(state.value[main_root - 1]),
            false => 0,
        }
    }

    /// Takes the step, or says 21, 22 or 23.
    fn take(&self, state: &mut State) -> u32 {
        let record = self.parts.record(self.node);
        match state.status[self.node - 1] {
            OPEN => self.open(record, state),
            BUSY => return self.go_on(record, state),
            _ => return 21,
        }
        0
    }

    fn owner(&self) -> usize {
        self.known.above[self.node].owner().into()
    }

    fn open(&self, record: &[u8; 10], state: &mut State) {
        match record[0] {
            CONSTANT => state.finish(self.node, word(record)),
            PARAMETER => state.finish(self.node, state.registers[self.owner() - 1][usize::from(record[1] & 7)]),
            BOUND => state.finish(self.node, state.value[word(record) as usize - 1]),
            kind => {
                state.status[self.node - 1] = BUSY;
                for (child, after) in self.children(record) {
                    if kind != LET || after != 0 {
                        state.status[child - 1] = OPEN;
                    }
                    if kind == IF {
                        break;
                    }
                }
            }
        }
    }

    fn go_on(&self, record: &[u8; 10], state: &mut State) -> u32 {
        let is_second = state.second[self.node - 1];
        let condition = first(record);
        match record[0] {
            PRIMITIVE if self.all_done(record, state) => {
                let last = self.children(record).last().map_or(condition, |(child, _)| child);
                let values = [condition, last].map(|child| state.value[child - 1]);
                state.finish(self.node, compute(record[1], values) & self.parts.mask(self.owner()));
                0
            }
            IF => {
                let branch = next(self.parts.record(condition));
                let is_then = state.value[condition - 1] != 0;
                let branch = if is_then { branch } else { next(self.parts.record(branch)) };
                self.last_part(state, is_second || state.is_done(condition), branch)
            }
            LET => {
                let mut body = condition;
                let mut are_done = true;
                for (child, after) in self.children(record) {
                    are_done &= after == 0 || state.is_done(child);
                    body = child;
                }
                self.last_part(state, is_second || are_done, body)
            }
            CALL => self.call(record, state),
            _ => 21,
        }
    }

    /// The branch or body: opened once what comes before it is done, and then waited for.
    fn last_part(&self, state: &mut State, is_ready: bool, last: usize) -> u32 {
        if !state.second[self.node - 1] && is_ready {
            state.second[self.node - 1] = true;
            state.status[last - 1] = OPEN;
        } else if state.second[self.node - 1] && state.is_done(last) {
            state.finish(self.node, state.value[last - 1]);
        } else {
            return 21;
        }
        0
    }

    fn call(&self, record: &[u8; 10], state: &mut State) -> u32 {
        let callee = word(record) as usize;
        if callee == self.owner() {
            if !self.all_done(record, state) {
                return 21;
            }
            self.enter(record, callee, state);
        } else if state.second[self.node - 1] {
            let root = self.parts.root(callee);
            if !state.is_done(root) {
                return 21;
            }
            state.finish(self.node, state.value[root - 1] & self.parts.mask(self.owner()));
            state.occupant[callee - 1] = 0;
        } else {
            if !self.all_done(record, state) {
                return 21;
            }
            if state.occupant[callee - 1] != 0 {
                let is_tagged = self.tags[(self.node - 1) / 8] >> ((self.node - 1) % 8) & 1 == 1;
                return if is_tagged { 22 } else { 23 };
            }
            self.enter(record, callee, state);
            state.second[self.node - 1] = true;
            state.occupant[callee - 1] = self.node as u16;
        }
        0
    }

    /// Makes a function's body ready for the arguments of this call and opens its root.
    fn enter(&self, record: &[u8; 10], function: usize, state: &mut State) {
        let mut arguments = [0; 8];
        let mask = self.parts.mask(function);
        for (argument, (child, _)) in arguments.iter_mut().zip(self.children(record)) {
            *argument = state.value[child - 1] & mask;
        }
        state.registers[function - 1] = arguments;
        let nodes = self.parts.nodes();
        let nodes_of = state.status.iter_mut().zip(&mut state.second).zip(&mut state.value);
        for (((status, second), value), above) in nodes_of.zip(&self.known.above[1..=nodes]) {
            if usize::from(above.owner()) == function {
                (*status, *second, *value) = (0, false, 0);
            }
        }
        state.status[self.parts.root(function) - 1] = OPEN;
    }

    fn all_done(&self, record: &[u8; 10], state: &State) -> bool {
        self.children(record).all(|(child, _)| state.is_done(child))
    }

    /// Each child with the one after it, 0 for none.
    fn children(&self, record: &[u8; 10]) -> impl Iterator<Item = (usize, usize)> + '_ {
        let mut at = first(record);
        std::iter::from_fn(move || {
            let child = at;
            at = next(self.parts.records.get(child.wrapping_sub(1))?);
            Some((child, at))
        })
    }
}
