//! The proved code as other programs see it. A refusal is its number times 65536 plus its place.

use numbers::SHEET_BYTES;

mod raw {
    extern "C" {
        pub fn table_check(table: *const u8, len: usize) -> u32;
        pub fn table_operation_counts(op: u8) -> u32;
        pub fn list_fill_tags(table: *const u8, len: usize, tags: *mut u8, tags_len: usize) -> u32;
        pub fn list_check_tags(table: *const u8, len: usize, tags: *const u8, tags_len: usize) -> u32;
        pub fn list_missing(table: *const u8, len: usize, tags: *const u8, tags_len: usize) -> u64;
        pub fn list_total(tags: *const u8, len: usize) -> u64;
        pub fn list_record(table: *const u8, len: usize, index: usize) -> u64;
        pub fn list_fill_records(table: *const u8, len: usize, records: *mut super::Record, records_len: usize) -> u32;
        pub fn sheet_fill(table: *const u8, len: usize, text: *mut u8) -> u64;
    }
}

/// A call that needs an arbiter, as it is lent.
#[repr(C)]
#[derive(Clone, Copy, PartialEq, Eq, Debug)]
pub struct Record {
    /// The function called.
    pub callee: u16,
    /// The function that the call stands in.
    pub caller: u16,
    /// The call.
    pub node: u16,
}

/// 0 for an accepted table, else the refusal.
pub fn table_check(table: &[u8]) -> u32 {
    // The library only reads, and within the length it is told.
    unsafe { raw::table_check(table.as_ptr(), table.len()) }
}

/// The fewest children of an operation times 65536 plus the most; 0 for a byte that is no operation.
pub fn table_operation_counts(operation: u8) -> u32 {
    // The library is lent nothing, and answers for every byte.
    unsafe { raw::table_operation_counts(operation) }
}

/// 0 and the tags of the arbiter list, or a refusal and the tags as they were.
pub fn list_fill_tags(table: &[u8], tags: &mut [u8]) -> u32 {
    // The library writes to the tags alone, and within the length it is told.
    unsafe { raw::list_fill_tags(table.as_ptr(), table.len(), tags.as_mut_ptr(), tags.len()) }
}

/// 0 if the table is accepted and the tags are in order for it, else the refusal.
pub fn list_check_tags(table: &[u8], tags: &[u8]) -> u32 {
    // The library only reads, and within the lengths it is told.
    unsafe { raw::list_check_tags(table.as_ptr(), table.len(), tags.as_ptr(), tags.len()) }
}

/// The lowest call of the arbiter list without a tag: 2^32 + its node; 0 if each has one; 2 * 2^32 + refusal.
pub fn list_missing(table: &[u8], tags: &[u8]) -> u64 {
    // The library only reads, and within the lengths it is told.
    unsafe { raw::list_missing(table.as_ptr(), table.len(), tags.as_ptr(), tags.len()) }
}

/// Bits set.
pub fn list_total(tags: &[u8]) -> u64 {
    // The library only reads, and within the length it is told.
    unsafe { raw::list_total(tags.as_ptr(), tags.len()) }
}

/// Record `index` of the arbiter list, from 0: 2^32 + callee * 2^24 + caller's function * 2^16 + node; 0 past the last;
/// 2 * 2^32 + refusal.
pub fn list_record(table: &[u8], index: usize) -> u64 {
    // The library only reads, and within the length it is told.
    unsafe { raw::list_record(table.as_ptr(), table.len(), index) }
}

/// 0 and the arbiter list at the front of the records, or a refusal and the records as they were.
pub fn list_fill_records(table: &[u8], records: &mut [Record]) -> u32 {
    // The library writes to the records alone, and within the number it is told.
    unsafe { raw::list_fill_records(table.as_ptr(), table.len(), records.as_mut_ptr(), records.len()) }
}

/// 2^32 + the bytes of the sheet, which is then at the front of the text; or 2 * 2^32 + refusal and the text as it was.
pub fn sheet_fill(table: &[u8], text: &mut [u8; SHEET_BYTES]) -> u64 {
    // The library reads within the length it is told, and writes to the text alone, whose length it knows.
    unsafe { raw::sheet_fill(table.as_ptr(), table.len(), text.as_mut_ptr()) }
}
