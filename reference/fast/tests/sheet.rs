//! The fast sheet is that of the reference, and nothing else of the text changes.

use design::difference::{shown, Outcome};
use design::list::{differs_over_all, records};
use design::listings::SheetTables;
use design::sheet::sheet;
use design::sheet_kinds::SheetKinds;
use design::Tree;
use numbers::SHEET_BYTES;

#[test]
fn the_sheets_agree() -> Outcome {
    let (mut kinds, mut refused, mut spare) = (SheetKinds::default(), 0, 0);
    for (round, bytes) in SheetTables::new(41).take(12_000).enumerate() {
        // What is past the sheet has to stay, whatever it is.
        let before = [round as u8; SHEET_BYTES];
        let (mut found, mut wanted) = (before, before);
        let answer = match Tree::read(&bytes) {
            Ok(tree) => {
                let list = records(&tree);
                kinds.note(&list);
                spare += usize::from(differs_over_all(&tree));
                let text = sheet(&list);
                wanted[..text.len()].copy_from_slice(&text);
                1 << 32 | text.len() as u64
            }
            Err(refusal) => {
                refused += 1;
                2 << 32 | u64::from(refusal.code())
            }
        };
        assert_eq!(fast::sheet(&bytes, &mut found), answer, "{}", shown(&bytes));
        assert!(found == wanted, "{}", shown(&bytes));
    }
    assert!(refused > 2000 && spare > 250, "{refused} refused, {spare} with another list over all bodies");
    kinds.often(40)
}
