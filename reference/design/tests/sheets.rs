//! The arbiter sheet, line by line: titles, columns, and where a page ends.

use design::asm::assemble;
use design::list::Record;
use design::sheet::{fill_sheet, places, program, sheet, sheet_of, Place};
use design::{Function, Node, Refusal};
use numbers::{PAGE_BYTES, SHEET_BYTES};

const SPACES: &str = "                                ";

/// A list with so many calls of each function from the first on, their nodes counted through.
fn list(counts: &[usize]) -> Vec<Record> {
    let callees = counts.iter().zip(1..).flat_map(|(count, callee)| std::iter::repeat_n(Function(callee), *count));
    callees.zip(1..).map(|(callee, node)| Record { callee, caller: Function(32), node: Node(node) }).collect()
}

fn lines(list: &[Record]) -> Vec<String> {
    let text = String::from_utf8(sheet(list)).expect("a text");
    assert!(text.len().is_multiple_of(PAGE_BYTES) && text.ends_with('\n'));
    text.lines().map(str::to_string).collect()
}

/// The places of the last call of each function, as page and line.
fn ends(counts: &[usize]) -> Vec<(usize, usize)> {
    let places = places(&list(counts));
    let sums = counts.iter().scan(0, |sum, count| {
        *sum += count;
        Some(*sum)
    });
    sums.map(|sum| (places[sum - 1].page, places[sum - 1].line)).collect()
}

#[test]
fn an_empty_list_has_a_page() {
    let lines = lines(&[]);
    assert_eq!(lines.len(), 24);
    assert_eq!(lines[0], " RES    CALL    NODE  PAGE     1");
    assert!(lines[1..].iter().all(|line| line == SPACES));
}

#[test]
fn two_calls() {
    let bytes = assemble("fun f(x) = x  fun main(x) = beside(f(x), f(x))").expect("a text in order");
    let text = String::from_utf8(sheet_of(&bytes).expect("an accepted table")).expect("a text");
    let wanted = [
        " RES    CALL    NODE  PAGE     1\n",
        "   1       2       3            \n",
        "   1       2       5            \n",
        &format!("{SPACES}\n").repeat(21),
    ];
    assert_eq!(text, wanted.concat());
    assert_eq!(program(&bytes), text.as_bytes());
}

#[test]
fn numbers_end_in_their_columns() {
    let record = |callee, caller, node| Record { callee: Function(callee), caller: Function(caller), node: Node(node) };
    let lines = lines(&[record(9, 10, 99), record(9, 32, 512), record(31, 32, 100)]);
    assert_eq!(lines[1], "   9      10      99            ");
    assert_eq!(lines[2], "   9      32     512            ");
    assert_eq!(lines[3], SPACES);
    assert_eq!(lines[4], "  31      32     100            ");
}

#[test]
fn one_resource_over_the_ends_of_pages() {
    for (count, end) in [(1, (1, 2)), (22, (1, 23)), (23, (1, 24)), (24, (2, 2)), (46, (2, 24)), (47, (3, 2))] {
        assert_eq!(ends(&[count]), [end], "{count}");
        let lines = lines(&list(&[count]));
        assert_eq!(lines.len(), 24 * end.0);
        // Nothing but a title stands between two calls of one resource.
        let calls = lines.iter().filter(|line| !line.contains("PAGE")).take(count);
        assert!(calls.zip(1..).all(|(line, node)| *line == format!("   1      32{node:8}            ")));
        assert_eq!(lines.iter().filter(|line| *line == SPACES).count(), 24 * end.0 - end.0 - count);
    }
}

#[test]
fn a_resource_changes_near_the_end_of_a_page() {
    // With three lines and with two the next resource still fits, with one and with none it doesn't.
    assert_eq!(ends(&[20, 1]), [(1, 21), (1, 23)]);
    assert_eq!(ends(&[21, 1]), [(1, 22), (1, 24)]);
    assert_eq!(ends(&[22, 1]), [(1, 23), (2, 2)]);
    assert_eq!(ends(&[23, 1]), [(1, 24), (2, 2)]);
    assert_eq!(ends(&[24, 1]), [(2, 2), (2, 4)]);
    // The same on the second page.
    assert_eq!(ends(&[44, 1]), [(2, 22), (2, 24)]);
    assert_eq!(ends(&[45, 1]), [(2, 23), (3, 2)]);
    assert_eq!(ends(&[46, 1]), [(2, 24), (3, 2)]);
    let lines = lines(&list(&[22, 2]));
    assert_eq!(lines[22], "   1      32      22            ");
    assert_eq!(lines[23], SPACES);
    assert_eq!(lines[24], " RES    CALL    NODE  PAGE     2");
    assert_eq!(lines[25], "   2      32      23            ");
    assert_eq!(lines[26], "   2      32      24            ");
}

#[test]
fn a_resource_goes_on_over_the_end_of_a_page() {
    // Calls of 2 stand at lines 12 to 24; then, after a title alone, at 2 and 3; 3 begins at 5.
    assert_eq!(ends(&[9, 15, 2]), [(1, 10), (2, 3), (2, 6)]);
    let lines = lines(&list(&[9, 15, 2]));
    assert_eq!(lines[10], SPACES);
    assert_eq!(lines[11], "   2      32      10            ");
    assert_eq!(lines[25], "   2      32      23            ");
    assert_eq!(lines[27], SPACES);
    assert_eq!(lines[28], "   3      32      25            ");
}

#[test]
fn many_pages() {
    let lines = lines(&list(&[17; 30]));
    let titles: Vec<&String> = lines.iter().step_by(24).collect();
    assert_eq!(titles[8], " RES    CALL    NODE  PAGE     9");
    assert_eq!(titles[9], " RES    CALL    NODE  PAGE    10");
    for (title, page) in titles.iter().zip(1..) {
        assert_eq!(**title, format!(" RES    CALL    NODE  PAGE{page:6}"));
    }
    assert_eq!(lines.iter().filter(|line| line.contains("RES")).count(), titles.len());
    let all: Vec<Place> = places(&list(&[17; 30]));
    assert_eq!((all.len(), all[509].page), (510, titles.len()));
}

#[test]
fn lent_texts() {
    let bytes = assemble("fun f() = 1  fun main() = add(f(), f())").expect("a text in order");
    let mut lent = [7; SHEET_BYTES];
    assert_eq!(fill_sheet(&bytes, &mut lent), Ok(PAGE_BYTES));
    assert_eq!(lent[..PAGE_BYTES], sheet_of(&bytes).expect("an accepted table"));
    assert!(lent[PAGE_BYTES..].iter().all(|byte| *byte == 7));
    let mut lent = [7; SHEET_BYTES];
    assert_eq!(fill_sheet(&bytes[..9], &mut lent), Err(Refusal { number: 3, place: Node(0) }));
    assert_eq!(lent, [7; SHEET_BYTES]);
    assert_eq!(program(&bytes[..9]), b"refused 3 0\n");
}
