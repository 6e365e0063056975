//! The nodes of the proved run on a budget. It tells none, so it is asked for one step at a time.

use design::circuit::{Answer, Ending};
use design::difference::ensure;
use design::{Node, Refusal};

use crate::lent::Lent;
use crate::{drive, query, step, Told};

/// The nodes of the steps and how they end, or the refusal before any. Before each the query names a node: a drive on a
/// budget of 1 has to do what a step at that node does, and no step if none is named.
pub fn traced(table: &[u8], tags: &[u8], state: &mut Lent, budget: u32) -> Told<Result<(Vec<Node>, Ending), Refusal>> {
    let mut nodes = Vec::new();
    loop {
        let named = query(table, tags, state)?;
        let (before, mut count) = (state.clone(), u32::MAX);
        let left = u32::from(nodes.len() < budget as usize);
        let ending = match drive(table, tags, state, left, &mut count)? {
            Ok(ending) => ending,
            Err(refusal) => {
                ensure(named == Err(refusal), || format!("query said {named:?}, drive {refusal:?}"))?;
                return Ok(Err(refusal));
            }
        };
        let told = || format!("query said {named:?}, a drive on {left} took {count} steps and said {ending:?}");
        let Ok(named) = named else {
            return Err(told());
        };
        match (count, named) {
            (1, Some(node)) => {
                ensure(left == 1, told)?;
                takes(table, tags, before, node, state, ending)?;
                nodes.push(node);
            }
            (0, None) => ensure(ending != Ending::Spent && before == *state, told)?,
            (0, Some(_)) => ensure(ending == Ending::Spent && left == 0 && before == *state, told)?,
            _ => return Err(told()),
        }
        if count == 0 || ending != Ending::Spent {
            return Ok(Ok((nodes, ending)));
        }
    }
}

/// The step at a node leads from one state to the other, and answers if the drive did.
fn takes(table: &[u8], tags: &[u8], mut before: Lent, node: Node, after: &Lent, ending: Ending) -> Told<()> {
    let answer = step(table, tags, &mut before, node.0)?;
    let wanted = match ending {
        Ending::Answered(value) => Answer::Answered(value),
        _ => Answer::Taken,
    };
    ensure(answer == wanted, || format!("a step at {node:?} said {answer:?}, a drive on 1 {ending:?}"))?;
    ensure(before == *after, || format!("a step at {node:?} and a drive on 1 lead to different states"))
}
