//! Tables of one primitive each, to hold a check against the numbers of children that operations may have.

use numbers::{ADD, BESIDE, CONSTANT, MOST_NODES, PRIMITIVE};

use crate::draft::{Draft, Head};
use crate::table::{Node, Refusal};

/// A primitive with this byte as its operation and so many children.
#[derive(Clone, Copy, Debug)]
pub struct Case {
    pub operation: u8,
    pub children: usize,
}

/// Every operation byte with 0 to 9 children: beside may have eight.
pub fn small() -> impl Iterator<Item = Case> {
    (0..=255).flat_map(|operation| (0..=9).map(move |children| Case { operation, children }))
}

/// Every operation there is with all numbers of children that a table has room for, so that a count that wraps shows.
pub fn large() -> impl Iterator<Item = Case> {
    let most = MOST_NODES - usize::from(PLACE.0);
    (ADD..=BESIDE).flat_map(move |operation| (0..=most).map(move |children| Case { operation, children }))
}

/// How often each answer comes in the small tables. By document 01 seven operations have two children and three have
/// one, so that each of these ten is accepted once; beside is accepted with 1 to 8. That makes 7 + 3 + 8 = 18. Of the
/// 11 * 10 tables with an operation there is, 110 - 18 = 92 are refused 7; the 256 - 11 = 245 other bytes are refused
/// 5 in 245 * 10 = 2450 tables.
pub const SMALL_ANSWERS: [(u32, usize); 3] = [(0, 18), (5 * 65536 + 2, 2450), (7 * 65536 + 2, 92)];

/// The same in the large ones: 0 to 510 children are 511 numbers, so that 11 * 511 - 18 = 5603 tables are refused 7.
pub const LARGE_ANSWERS: [(u32, usize); 2] = [(0, 18), (7 * 65536 + 2, 5603)];

/// A word for each byte of the field, which has to be zero in a primitive.
pub const WORDS: [u32; 4] = [1, 1 << 8, 1 << 16, 1 << 24];

/// With a word that isn't zero all 2560 small tables are refused 5, four times each.
pub const WORD_ANSWERS: [(u32, usize); 1] = [(5 * 65536 + 2, 10240)];

/// The primitive. It isn't the first node, so that a place is told from the lowest there is.
const PLACE: Node = Node(2);

impl Case {
    /// f() = 1, and main is the primitive over constants.
    pub fn bytes(self) -> Vec<u8> {
        self.with_word(0)
    }

    /// The same with this in the primitive's word.
    pub fn with_word(self, word: u32) -> Vec<u8> {
        let mut draft = Draft::default();
        let other = draft.add(CONSTANT, 0, 1);
        let primitive = draft.add(PRIMITIVE, self.operation, word);
        let children = (0..self.children).map(|_| draft.add(CONSTANT, 0, 7)).collect();
        draft.items[primitive].children = children;
        draft.functions = vec![Head::new(0, other), Head::new(0, primitive)];
        draft.bytes()
    }

    /// What a check has to say if these are the operation's counts: 0, or the refusal.
    pub fn wanted(self, (fewest, most): (u16, u16)) -> u32 {
        let refused = |number| Refusal { number, place: PLACE }.code();
        if (fewest, most) == (0, 0) {
            refused(5)
        } else if (fewest.into()..=most.into()).contains(&self.children) {
            0
        } else {
            refused(7)
        }
    }
}
