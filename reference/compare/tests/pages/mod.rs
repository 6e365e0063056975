//! What can be seen of a sheet as it hangs there, apart from how the reference makes one.

use design::difference::{ensure, Outcome};
use design::list::Record;
use design::{Function, Node};
use numbers::{LINE_CHARACTERS, PAGE_BYTES, PAGE_LINES};

/// A call as it stands on a sheet; page and line count from 1.
struct Call {
    page: usize,
    line: usize,
    record: Record,
}

/// Whole pages, a title on each, every listed call once and in order, and nothing else; lines of spaces where they are
/// due, and new pages only where they are.
pub fn in_order(text: &[u8], list: &[Record]) -> Outcome {
    let whole = !text.is_empty() && text.len().is_multiple_of(PAGE_BYTES);
    ensure(whole, || format!("{} bytes", text.len()))?;
    let mut calls = Vec::new();
    for (at, line) in text.chunks(LINE_CHARACTERS + 1).enumerate() {
        let (page, number) = (at / PAGE_LINES + 1, at % PAGE_LINES + 1);
        let with = || format!("page {page}, line {number}: {:?}", String::from_utf8_lossy(line));
        let line = line.strip_suffix(b"\n").ok_or_else(with)?;
        if number == 1 {
            ensure(line == format!(" RES    CALL    NODE  PAGE  {page:4}").as_bytes(), with)?;
        } else if line.iter().any(|character| *character != b' ') {
            calls.push(Call { page, line: number, record: record(line).ok_or_else(with)? });
        }
    }
    let found: Vec<Record> = calls.iter().map(|call| call.record).collect();
    ensure(found == list, || format!("on the sheet {found:?}, listed {list:?}"))?;
    if let Some(first) = calls.first() {
        ensure((first.page, first.line) == (1, 2), || format!("the first call is at line {}", first.line))?;
    }
    for pair in calls.windows(2) {
        ensure(follows(&pair[0], &pair[1]), || format!("page {}, line {}", pair[1].page, pair[1].line))?;
    }
    let (pages, needed) = (text.len() / PAGE_BYTES, calls.last().map_or(1, |call| call.page));
    ensure(pages == needed, || format!("{pages} pages, {needed} with calls"))
}

/// Three numbers and spaces, each number in its columns; no letter, no zero before a number.
fn record(line: &[u8]) -> Option<Record> {
    let text = std::str::from_utf8(line).ok()?;
    let numbers: Vec<u16> = text.split_whitespace().filter_map(|number| number.parse().ok()).collect();
    let [callee, caller, node] = numbers[..] else { return None };
    let record = Record { callee: Function(callee), caller: Function(caller), node: Node(node) };
    (text == format!("{callee:4}    {caller:4}    {node:4}            ")).then_some(record)
}

/// Whether a call stands right where it has to after the one before it.
fn follows(before: &Call, call: &Call) -> bool {
    let lines = if before.record.callee == call.record.callee { 1 } else { 2 };
    let line = before.line + lines;
    match line <= PAGE_LINES {
        true => (call.page, call.line) == (before.page, line),
        false => (call.page, call.line) == (before.page + 1, 2),
    }
}
