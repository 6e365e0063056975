//! The proved circuit as other programs see it, and its answers as the reference has them.
//!
//! An answer of a form that isn't agreed on comes back as a message, like any other difference.

pub mod lent;
mod raw;
pub mod rounds;
pub mod seen;
pub mod traces;

// Brings the library of the proved code, which that crate links.
use compare as _;

use design::circuit::{Answer, Ending};
use design::difference::ensure;
use design::{Node, Refusal};
use lent::Lent;
use raw::Handed;

/// What the proved code said, or a message about an answer of no agreed form.
pub type Told<T> = Result<T, String>;

/// What is before and after a lent count and nobody may touch.
const BESIDE: u32 = 0xa5a5_a5a5;
const BESIDE_LONG: usize = usize::MAX / 3;

/// The two halves of an answer: what it is, and the value, node or refusal that goes with it.
fn halves(answer: u64) -> (u32, u32) {
    ((answer >> 32) as u32, answer as u32)
}

fn strange<T>(what: &str, answer: u64) -> Told<T> {
    Err(format!("{what} answered {answer:#018x}, which is of no agreed form"))
}

/// A refusal, which has a number.
fn refusal(what: &str, answer: u64) -> Told<Refusal> {
    match answer as u32 {
        0..=0xffff => strange(what, answer),
        code => Ok(Refusal { number: (code >> 16) as u16, place: Node(code as u16) }),
    }
}

pub fn start(table: &[u8], tags: &[u8], arguments: &[u32], state: &mut Lent) -> Told<Result<(), Refusal>> {
    let handed = Handed { table, tags, state };
    // The library writes to the state alone, and within the lengths it is told.
    let answer = unsafe { handed.circuit_start(arguments.as_ptr(), arguments.len()) };
    match halves(answer) {
        (0, 0) => Ok(Ok(())),
        (2, _) => Ok(Err(refusal("start", answer)?)),
        _ => strange("start", answer),
    }
}

pub fn step(table: &[u8], tags: &[u8], state: &mut Lent, node: u16) -> Told<Answer> {
    let handed = Handed { table, tags, state };
    // The library writes to the state alone, and within the lengths it is told.
    let answer = unsafe { handed.circuit_step(node) };
    match halves(answer) {
        (0, 0) => Ok(Answer::Taken),
        (1, value) => Ok(Answer::Answered(value)),
        (2, _) => Ok(Answer::Refused(refusal("step", answer)?)),
        _ => strange("step", answer),
    }
}

/// The first possible step; that the state was only read is looked at too.
pub fn query(table: &[u8], tags: &[u8], state: &Lent) -> Told<Result<Option<Node>, Refusal>> {
    let mut lent = state.clone();
    let handed = Handed { table, tags, state: &mut lent };
    // The library only reads, and within the lengths it is told.
    let answer = unsafe { handed.circuit_query() };
    ensure(lent == *state, || "a query changed the state".to_string())?;
    match halves(answer) {
        (0, 0) => Ok(Ok(None)),
        (1, node @ 1..=0xffff) => Ok(Ok(Some(Node(node as u16)))),
        (2, _) => Ok(Err(refusal("query", answer)?)),
        _ => strange("query", answer),
    }
}

/// The refusal that ended the run; the count is left as the library left it.
pub fn run(table: &[u8], tags: &[u8], state: &mut Lent, nodes: &[u16], count: &mut usize) -> Told<Option<Refusal>> {
    let handed = Handed { table, tags, state };
    let mut counts = [BESIDE_LONG, *count, BESIDE_LONG];
    // The library writes to the state and the count alone, and within the lengths it is told.
    let answer = unsafe { handed.circuit_run(nodes.as_ptr(), nodes.len(), counts.as_mut_ptr().wrapping_add(1)) };
    ensure([counts[0], counts[2]] == [BESIDE_LONG; 2], || "run wrote beside its count".to_string())?;
    *count = counts[1];
    match halves(answer) {
        (0, 0) => Ok(None),
        (2, _) => Ok(Some(refusal("run", answer)?)),
        _ => strange("run", answer),
    }
}

/// How the run on a budget ended; the count is left as the library left it.
pub fn drive(
    table: &[u8],
    tags: &[u8],
    state: &mut Lent,
    budget: u32,
    count: &mut u32,
) -> Told<Result<Ending, Refusal>> {
    let handed = Handed { table, tags, state };
    let mut counts = [BESIDE, *count, BESIDE];
    // The library writes to the state and the count alone, and within the lengths it is told.
    let answer = unsafe { handed.circuit_drive(budget, counts.as_mut_ptr().wrapping_add(1)) };
    ensure([counts[0], counts[2]] == [BESIDE; 2], || "drive wrote beside its count".to_string())?;
    *count = counts[1];
    match halves(answer) {
        (0, 0) => Ok(Ok(Ending::AtRest)),
        (1, value) => Ok(Ok(Ending::Answered(value))),
        (2, _) => Ok(Err(refusal("drive", answer)?)),
        (3, 0) => Ok(Ok(Ending::Spent)),
        _ => strange(&format!("drive, with {count} counted,"), answer),
    }
}
