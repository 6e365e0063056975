//! The arbiter list in its forms, and the wrong turns that tempt.

use design::asm::assemble;
use design::generator::accepted;
use design::list::{check_tags, fill_records, fill_tags, program, records, tags_of, total, Record};
use design::random::Random;
use design::states::damaged_tags;
use design::{Function, Node, Refusal, Tree};

fn table(text: &str) -> Vec<u8> {
    assemble(text).expect("a text in order")
}

fn lists(text: &str, wanted: &[u16]) {
    let tree = Tree::read(&table(text)).expect("an accepted table");
    let mut found: Vec<u16> = records(&tree).iter().map(|record| record.node.0).collect();
    found.sort();
    assert_eq!(found, wanted, "{text}");
}

#[test]
fn what_is_held_against_what() {
    // A let body comes after its definientia; the definientia run together.
    lists("fun f() = 1  fun main() = let a = f() in f()", &[]);
    lists("fun f() = 1  fun main() = let a = f(), b = f() in f()", &[3, 4]);
    // The branches and the condition of an if never run together.
    lists("fun f() = 1  fun main() = if f() then f() else f()", &[]);
    lists("fun f() = 1  fun main() = beside(if f() then f() else f(), 2)", &[]);
    lists("fun f() = 1  fun main() = beside(if f() then f() else f(), f())", &[4, 5, 6, 7]);
    // Arguments of a call run together, of a self call too; the call itself comes after them.
    lists("fun f() = 1  fun g(x, y) = 1  fun main() = g(f(), f())", &[4, 5]);
    lists("fun f() = 1  fun main(x, y) = main(f(), f())", &[3, 4]);
    lists("fun f(x) = 1  fun main() = f(f(f(1)))", &[]);
    // A self call is no call, though its arguments may hold some.
    lists("fun f(x) = if x then f(halve(x)) else 1  fun main() = f(3)", &[]);
    lists("fun f(x) = if x then f(halve(x)) else 1  fun main() = beside(f(3), f(2))", &[8, 10]);
    // One call site in two sets is listed, through one callee or two.
    lists("fun f() = 1  fun g() = f()  fun h() = g()  fun main() = beside(h(), h())", &[2, 3, 5, 6]);
    lists("fun f() = 1  fun g() = f()  fun h() = f()  fun main() = beside(g(), h())", &[2, 3]);
    // Bodies that main doesn't reach count no more; `reach_cases.rs` has more of these.
    lists("fun f() = 1  fun g() = add(f(), f())  fun main() = 1", &[]);
    // Only those calls need an arbiter that may meet another.
    lists("fun f() = 1  fun main() = let a = f(), b = 2 in beside(f(), f())", &[6, 7]);
}

#[test]
fn records_come_by_callee_and_then_by_node() {
    let bytes = table("fun f() = 1  fun g() = 2  fun main() = beside(g(), f(), g(), f())");
    let record = |callee, node| Record { callee: Function(callee), caller: Function(3), node: Node(node) };
    let wanted = [record(1, 5), record(1, 7), record(2, 4), record(2, 6)];
    let kept = record(9, 9);
    let mut lent = [kept; 5];
    assert_eq!(fill_records(&bytes, &mut lent), Ok(4));
    assert_eq!((&lent[..4], lent[4]), (&wanted[..], kept));
    let mut lent = [kept; 3];
    assert_eq!(fill_records(&bytes, &mut lent), Err(Refusal { number: 10, place: Node(0) }));
    assert_eq!(lent, [kept; 3]);
    assert_eq!(fill_records(&bytes[..3], &mut lent), Err(Refusal { number: 1, place: Node(0) }));
}

#[test]
fn lent_tags() {
    let bytes = table("fun f() = 1  fun main() = beside(f(), f())");
    let mut lent = [0xff];
    assert_eq!(fill_tags(&bytes, &mut lent), Ok(()));
    assert_eq!(lent, [0b1100]);
    for length in [0, 2] {
        let mut lent = vec![0xff; length];
        assert_eq!(fill_tags(&bytes, &mut lent), Err(Refusal { number: 10, place: Node(0) }));
        assert_eq!(lent, vec![0xff; length]);
    }
}

#[test]
fn tags_handed_in() {
    let tree = Tree::read(&table("fun f() = 1  fun main() = if f() then main() else f()")).expect("accepted");
    // 1; 2 if, 3 call, 4 self call, 5 call.
    let refused = |place| Err(Refusal { number: 10, place: Node(place) });
    for (tags, answer) in [
        (&[0b10100][..], Ok(())),
        (&[0][..], Ok(())),
        (&[][..], refused(0)),
        (&[0, 0][..], refused(0)),
        (&[0b100000][..], refused(0)),
        (&[0b100001][..], refused(0)),
        (&[0b1][..], refused(1)),
        (&[0b1010][..], refused(2)),
        (&[0b1100][..], refused(4)),
    ] {
        assert_eq!(check_tags(&tree, tags), answer, "{tags:?}");
    }
}

#[test]
fn the_forms_agree() {
    let mut random = Random::new(5);
    let mut refused = 0;
    for _ in 0..1500 {
        let bytes = accepted(&mut random);
        let tree = Tree::read(&bytes).expect("an accepted table");
        let tags = tags_of(&bytes).expect("an accepted table");
        assert_eq!(check_tags(&tree, &tags), Ok(()));
        let count = records(&tree).len();
        assert_eq!(total(&tags) as usize, count);
        let text = program(&bytes);
        assert_eq!(text.lines().count(), count + 2);
        assert!(text.ends_with(&format!("total {count}\n")));
        refused += usize::from(check_tags(&tree, &damaged_tags(&mut random, &tree)).is_err());
    }
    assert!(refused > 900, "{refused}");
}
