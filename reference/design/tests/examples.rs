//! The example files: each table is what its text assembles to, and the check says of it what it should.

use std::collections::BTreeSet;
use std::fs;

use design::asm::assemble;
use design::examples::folder;
use design::list::program;
use design::reading::{read, Reading};
use design::sheet::sheet_of;
use design::{check, Node, Refusal, Table, Tree};

const OUT_OF_TAIL: Result<(), Refusal> = Err(Refusal { number: 9, place: Node(2) });

const EXPECTED: [(&str, Result<(), Refusal>, &str); 12] = [
    ("twice", Ok(()), "design 2 4\ntotal 0\n"),
    ("beside", Ok(()), "design 2 6\narbiter 1 2 3\narbiter 1 2 5\ntotal 2\n"),
    ("main_beside", Ok(()), "design 3 8\narbiter 1 2 2\narbiter 2 3 5\narbiter 2 3 7\ntotal 3\n"),
    ("mult", Ok(()), "design 1 21\ntotal 0\n"),
    ("self_argument", OUT_OF_TAIL, "refused 9 2\n"),
    ("fir", Ok(()), "design 5 37\ntotal 0\n"),
    ("limits", Ok(()), "design 32 512\ntotal 0\n"),
    ("eight_parameters", Ok(()), "design 2 18\ntotal 0\n"),
    ("no_argument", Ok(()), "design 2 2\ntotal 0\n"),
    ("pages", Ok(()), PAGES),
    ("valve", Ok(()), "design 4 30\ntotal 0\n"),
    // The calls 3 and 5 are in a body that main doesn't reach.
    ("spare", Ok(()), "design 3 11\narbiter 1 3 8\narbiter 1 3 10\ntotal 2\n"),
];

const PAGES: &str = "\
    design 4 140\narbiter 1 2 6\narbiter 1 2 8\narbiter 1 4 20\narbiter 1 4 22\narbiter 1 4 24\narbiter 1 4 26\n\
    arbiter 1 4 28\narbiter 1 4 30\narbiter 1 4 32\narbiter 1 4 34\narbiter 1 4 37\narbiter 1 4 39\narbiter 1 4 41\n\
    arbiter 1 4 43\narbiter 1 4 45\narbiter 1 4 47\narbiter 1 4 49\narbiter 1 4 51\narbiter 1 4 54\narbiter 1 4 56\n\
    arbiter 1 4 58\narbiter 1 4 60\narbiter 2 4 63\narbiter 2 4 65\narbiter 2 4 67\narbiter 2 4 69\narbiter 2 4 71\n\
    arbiter 2 4 73\narbiter 2 4 75\narbiter 2 4 78\narbiter 2 4 80\narbiter 2 4 82\narbiter 2 4 84\narbiter 2 4 86\n\
    arbiter 2 4 88\narbiter 2 4 90\narbiter 2 4 95\narbiter 2 4 97\narbiter 2 4 100\narbiter 2 4 102\n\
    arbiter 2 4 106\narbiter 2 4 108\narbiter 2 4 111\narbiter 2 4 113\narbiter 2 4 118\narbiter 2 4 120\n\
    arbiter 2 4 123\narbiter 2 4 125\narbiter 2 4 129\narbiter 2 4 131\narbiter 2 4 134\narbiter 2 4 136\n\
    arbiter 3 4 92\narbiter 3 4 93\narbiter 3 4 94\narbiter 3 4 99\narbiter 3 4 104\narbiter 3 4 105\n\
    arbiter 3 4 110\narbiter 3 4 115\narbiter 3 4 116\narbiter 3 4 117\narbiter 3 4 122\narbiter 3 4 127\n\
    arbiter 3 4 128\narbiter 3 4 133\ntotal 66\n";

#[test]
fn tables_are_what_their_texts_assemble_to() {
    for (name, answer, printed) in EXPECTED {
        let text = fs::read_to_string(folder().join(format!("{name}.safl"))).expect(name);
        let bytes = fs::read(folder().join(format!("{name}.table"))).expect(name);
        assert_eq!(assemble(&text).as_ref(), Ok(&bytes), "{name}");
        assert_eq!(check(&bytes), answer, "{name}");
        assert_eq!(program(&bytes), printed, "{name}");
    }
}

#[test]
fn no_example_is_left_out() {
    let named: BTreeSet<String> = EXPECTED.iter().map(|(name, _, _)| name.to_string()).collect();
    for ending in ["safl", "table"] {
        let mut found = BTreeSet::new();
        for entry in fs::read_dir(folder()).expect("examples") {
            let path = entry.expect("an entry").path();
            if path.extension().is_some_and(|other| other == ending) {
                found.insert(path.file_stem().expect("a name").to_string_lossy().into_owned());
            }
        }
        assert_eq!(found, named);
    }
}

#[test]
fn the_limits_are_the_limits() {
    let bytes = fs::read(folder().join("limits.table")).expect("limits");
    let table = Table::new(&bytes);
    assert_eq!((table.function_count(), table.node_count()), (32, 512));
    let bytes = fs::read(folder().join("eight_parameters.table")).expect("eight_parameters");
    let table = Table::new(&bytes);
    assert!(table.functions().all(|function| table.parameter_count(function) == 8));
}

/// The sheet of the example that has pages: where each resource begins and ends.
#[test]
fn the_pages_of_a_sheet() {
    let bytes = fs::read(folder().join("pages.table")).expect("pages");
    let text = String::from_utf8(sheet_of(&bytes).expect("an accepted table")).expect("a text");
    let lines: Vec<&str> = text.lines().collect();
    assert_eq!(lines.len(), 3 * 24);
    for (page, line, wanted) in [
        (1, 1, " RES    CALL    NODE  PAGE     1"),
        (1, 2, "   1       2       6            "),
        (1, 23, "   1       4      60            "),
        (1, 24, "                                "),
        (2, 1, " RES    CALL    NODE  PAGE     2"),
        (2, 2, "   2       4      63            "),
        (2, 24, "   2       4     118            "),
        (3, 1, " RES    CALL    NODE  PAGE     3"),
        (3, 2, "   2       4     120            "),
        (3, 8, "   2       4     136            "),
        (3, 9, "                                "),
        (3, 10, "   3       4      92            "),
        (3, 23, "   3       4     133            "),
        (3, 24, "                                "),
    ] {
        assert_eq!(lines[24 * (page - 1) + line - 1], wanted, "page {page}, line {line}");
    }
}

/// A design of 4, 8 and 32 bits, with arguments that main cuts, that a callee cuts, and that fit.
#[test]
fn the_valve_comes_round() {
    let bytes = fs::read(folder().join("valve.table")).expect("valve");
    let table = Table::new(&bytes);
    assert_eq!(table.functions().map(|function| table.width_byte(function)).collect::<Vec<u8>>(), [0, 4, 4, 8]);
    let tree = Tree::read(&bytes).expect("an accepted table");
    for (arguments, value, count) in [([9, 9], 40, 235), ([265, 9], 40, 235), ([25, 9], 40, 235), ([15, 1], 0, 53)] {
        assert_eq!(read(&tree, &arguments, 1000), Some(Reading { value, count }), "{arguments:?}");
    }
}
