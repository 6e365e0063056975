//! The arbiter sheet: the list on pages, by resource. Each call gets its place first, and then the pages are written.

use numbers::{LINE_CHARACTERS, PAGE_LINES, SHEET_BYTES};

use crate::list::{self, records, Record};
use crate::table::Refusal;
use crate::tree::Tree;

/// Where the line of a call stands, both numbers from 1.
#[derive(Clone, Copy, PartialEq, Eq, Debug)]
pub struct Place {
    pub page: usize,
    pub line: usize,
}

/// Line 1 of a page is its title.
const FIRST_LINE: usize = 2;

// All that is written is right-aligned: these are the columns where it ends, counted from 1.
const RESOURCE_END: usize = 4;
const CALL_END: usize = 12;
const NODE_END: usize = 20;
const PAGE_END: usize = 26;
const NUMBER_END: usize = 32;

type Line = [u8; LINE_CHARACTERS];

/// The places of the calls of a list, which is in its order.
pub fn places(list: &[Record]) -> Vec<Place> {
    let mut places = Vec::new();
    let (mut page, mut line) = (1, FIRST_LINE);
    let mut resource = None;
    for record in list {
        let is_first_on_page = line == FIRST_LINE;
        let is_same_resource = resource == Some(record.callee);
        // The line of spaces that is due before this call.
        let due = if is_first_on_page || is_same_resource { 0 } else { 1 };
        if line + due <= PAGE_LINES {
            line += due;
        } else {
            // On the new page the call is the first, and nothing is due before it.
            (page, line) = (page + 1, FIRST_LINE);
        }
        places.push(Place { page, line });
        resource = Some(record.callee);
        line += 1;
    }
    places
}

/// The sheet of a list, which is in its order; an empty one has a page too.
pub fn sheet(list: &[Record]) -> Vec<u8> {
    let places = places(list);
    let page_count = places.last().map_or(1, |place| place.page);
    let mut pages = vec![[[b' '; LINE_CHARACTERS]; PAGE_LINES]; page_count];
    for (page, number) in pages.iter_mut().zip(1..) {
        write_title(&mut page[0], number);
    }
    for (record, Place { page, line }) in list.iter().zip(places) {
        write_call(&mut pages[page - 1][line - 1], record);
    }
    let lines = pages.iter().flatten();
    lines.flat_map(|line| line.iter().copied().chain([b'\n'])).collect()
}

fn write_title(line: &mut Line, page: usize) {
    write(line, RESOURCE_END, "RES");
    write(line, CALL_END, "CALL");
    write(line, NODE_END, "NODE");
    write(line, PAGE_END, "PAGE");
    write(line, NUMBER_END, &page.to_string());
}

fn write_call(line: &mut Line, record: &Record) {
    write(line, RESOURCE_END, &record.callee.0.to_string());
    write(line, CALL_END, &record.caller.0.to_string());
    write(line, NODE_END, &record.node.0.to_string());
}

/// Writes a text so that it ends in this column.
fn write(line: &mut Line, end: usize, text: &str) {
    line[end - text.len()..end].copy_from_slice(text.as_bytes());
}

/// The sheet of a table.
pub fn sheet_of(bytes: &[u8]) -> Result<Vec<u8>, Refusal> {
    Ok(sheet(&records(&Tree::read(bytes)?)))
}

/// Fills a lent text from the front and tells how many bytes that took.
pub fn fill_sheet(bytes: &[u8], lent: &mut [u8; SHEET_BYTES]) -> Result<usize, Refusal> {
    let text = sheet_of(bytes)?;
    lent[..text.len()].copy_from_slice(&text);
    Ok(text.len())
}

/// What the sheet program prints for this input; what it says of a bad table, the list program says.
pub fn program(input: &[u8]) -> Vec<u8> {
    sheet_of(input).unwrap_or_else(|_| list::program(input).into_bytes())
}
