//! The numbers that document 01 gives to its limits, kinds, operations and statuses, and document 02 to widths and the
//! sheet's pages. They stand here alone.

// Limits.
pub const MOST_FUNCTIONS: usize = 32;
pub const MOST_NODES: usize = 512;
pub const MOST_PARAMETERS: usize = 8;

/// The bits of a value, and of a function whose width byte is 0.
pub const MOST_WIDTH: u8 = 32;

// Kinds of nodes.
pub const CONSTANT: u8 = 1;
pub const PARAMETER: u8 = 2;
pub const PRIMITIVE: u8 = 3;
pub const CALL: u8 = 4;
pub const IF: u8 = 5;
pub const LET: u8 = 6;
pub const BOUND: u8 = 7;

// Operations of a primitive.
pub const ADD: u8 = 0;
pub const SUBTRACT: u8 = 1;
pub const AND: u8 = 2;
pub const OR: u8 = 3;
pub const XOR: u8 = 4;
pub const DOUBLE: u8 = 5;
pub const HALVE: u8 = 6;
pub const LOW_BIT: u8 = 7;
pub const EQUAL: u8 = 8;
pub const LESS: u8 = 9;
pub const BESIDE: u8 = 10;

// Statuses of a node in a circuit.
pub const IDLE: u8 = 0;
pub const OPEN: u8 = 1;
pub const BUSY: u8 = 2;
pub const DONE: u8 = 3;

// Pages of the arbiter sheet: lines of a page, and characters of a line before its line feed.
pub const PAGE_LINES: usize = 24;
pub const LINE_CHARACTERS: usize = 32;
pub const PAGE_BYTES: usize = PAGE_LINES * (LINE_CHARACTERS + 1);

/// The pages of the longest sheet: 510 calls and 30 lines of spaces between 31 resources, 23 of them to a page.
pub const MOST_PAGES: usize = 24;
pub const SHEET_BYTES: usize = MOST_PAGES * PAGE_BYTES;
