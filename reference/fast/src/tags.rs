//! The tag list that is handed in with a table.

use numbers::CALL;

use crate::check::{survey, Survey};
use crate::reach::Reach;
use crate::{refusal, word, Parts};

/// 0 for an accepted table and a tag list in order for it, else the refusal.
pub fn check_tags(table: &[u8], tags: &[u8]) -> u32 {
    checked(table, tags, &mut Survey::empty()).map_or_else(|refused| refused, |_| 0)
}

/// The parts of an accepted table with a tag list in order, and what was learnt of it, or the refusal.
pub(crate) fn checked<'a>(table: &'a [u8], tags: &[u8], known: &mut Survey) -> Result<Parts<'a>, u32> {
    let refused = survey(table, known);
    surveyed(table, tags, known, refused)
}

/// The same, and what main reaches.
pub(crate) fn checked_reach<'a>(
    table: &'a [u8],
    tags: &[u8],
    known: &mut Survey,
    reach: &mut Reach,
) -> Result<Parts<'a>, u32> {
    let refused = reach.survey(table, known);
    surveyed(table, tags, known, refused)
}

#[inline(always)]
fn surveyed<'a>(table: &'a [u8], tags: &[u8], known: &Survey, refused: u32) -> Result<Parts<'a>, u32> {
    if refused != 0 {
        return Err(refused);
    }
    let parts = Parts::of(table);
    match untaggable(&parts, tags, known) {
        None => Ok(parts),
        Some(place) => Err(refusal(10, place)),
    }
}

/// The place of refusal 10, if it applies.
fn untaggable(parts: &Parts, tags: &[u8], known: &Survey) -> Option<u32> {
    let nodes = parts.nodes();
    if tags.len() != nodes.div_ceil(8) || usize::from(*tags.last()?) >> ((nodes - 1) % 8 + 1) != 0 {
        return Some(0);
    }
    for (begin, mut tagged) in (1..).step_by(64).zip(words(tags)) {
        while tagged != 0 {
            let node = begin + tagged.trailing_zeros() as usize;
            let record = parts.record(node);
            if record[0] != CALL || word(record) == known.above[node].owner().into() {
                return Some(node as u32);
            }
            tagged &= tagged - 1;
        }
    }
    None
}

/// The tags of 64 nodes each.
pub(crate) fn words(tags: &[u8]) -> impl Iterator<Item = u64> + '_ {
    tags.chunks(8).map(|bytes| bytes.iter().rev().fold(0, |word, byte| word << 8 | u64::from(*byte)))
}
