//! The arbiter sheet: the sets that the list is made with have the calls of each callee in order, and a page is copied
//! whole before calls are written onto it.

use numbers::{LINE_CHARACTERS, MOST_NODES, PAGE_LINES, SHEET_BYTES};

use crate::check::Survey;
use crate::reach::Reach;
use crate::sets::Walk;
use crate::Parts;

type Line = [u8; LINE_CHARACTERS + 1];

const NO_CALL: Line = {
    let mut line = [b' '; LINE_CHARACTERS + 1];
    line[LINE_CHARACTERS] = b'\n';
    line
};

/// A page without its number and without calls.
static PAGE: [Line; PAGE_LINES] = {
    let mut page = [NO_CALL; PAGE_LINES];
    page[0] = *b" RES    CALL    NODE  PAGE      \n";
    page
};

/// Numbers as they stand in four columns, none being over 512.
static NUMBERS: [[u8; 4]; MOST_NODES + 1] = {
    let mut numbers = [*b"   0"; MOST_NODES + 1];
    let mut number = 1;
    while number <= MOST_NODES {
        let (mut left, mut at) = (number, 4);
        while left != 0 {
            at -= 1;
            numbers[number][at] = b'0' + (left % 10) as u8;
            left /= 10;
        }
        number += 1;
    }
    numbers
};

/// Fills the text with the sheet from the front. Returns 2^32 plus the bytes that took; or 2 * 2^32 plus what the check
/// returns, the text as it was.
pub fn sheet(table: &[u8], text: &mut [u8; SHEET_BYTES]) -> u64 {
    let (mut known, mut reach) = (Survey::empty(), Reach::unknown());
    let refused = reach.survey(table, &mut known);
    if refused != 0 {
        return 2 << 32 | u64::from(refused);
    }
    let parts = Parts::of(table);
    let mut walk = Walk::new(parts);
    walk.reached(reach.reached);
    let mut pages = Pages { lines: text.as_chunks_mut().0, at: 0, end: 0 };
    pages.turn();
    // Nobody else calls main.
    for callee in 1..parts.functions() {
        let calls: [u64; MOST_NODES / 64] = std::array::from_fn(|at| walk.listed[at] & walk.sites[callee][at]);
        if calls.iter().fold(0, |all, word| all | word) == 0 {
            continue;
        }
        pages.begin_resource();
        for (begin, mut calls) in (1..).step_by(64).zip(calls) {
            while calls != 0 {
                let node = begin + calls.trailing_zeros() as usize;
                pages.call(callee, known.above[node].owner().into(), node);
                calls &= calls - 1;
            }
        }
    }
    1 << 32 | (pages.end * size_of::<Line>()) as u64
}

struct Pages<'a> {
    lines: &'a mut [Line],
    /// The next call's line, and the line after the page.
    at: usize,
    end: usize,
}

impl Pages<'_> {
    /// Begins a page.
    fn turn(&mut self) {
        let page = &mut self.lines[self.end..self.end + PAGE_LINES];
        page.copy_from_slice(&PAGE);
        page[0][28..32].copy_from_slice(&NUMBERS[self.end / PAGE_LINES + 1]);
        self.at = self.end + 1;
        self.end += PAGE_LINES;
    }

    /// Leaves a line of spaces, but not after a title. Where that is the page's last, the call turns to the next.
    fn begin_resource(&mut self) {
        let is_after_title = self.at + PAGE_LINES == self.end + 1;
        if !is_after_title && self.at < self.end {
            self.at += 1;
        }
    }

    fn call(&mut self, callee: usize, caller: usize, node: usize) {
        if self.at == self.end {
            self.turn();
        }
        let line = &mut self.lines[self.at];
        line[..4].copy_from_slice(&NUMBERS[callee]);
        line[8..12].copy_from_slice(&NUMBERS[caller]);
        line[16..20].copy_from_slice(&NUMBERS[node]);
        self.at += 1;
    }
}
