//! The designs that the rules are held against.

use design::asm::assemble;
use design::circuit::{run_budget, run_list, start, step, Answer, Ending, State};
use design::list::{arbiter_list, program, tags_of};
use design::reading::{read, Reading};
use design::{check, Node, Refusal, Tree};

const TWICE: &str = "fun f(x) = x  fun main(x) = f(f(x))";
const BESIDE: &str = "fun f(x) = x  fun main(x) = beside(f(x), f(x))";
const MAIN_BESIDE: &str = "fun f(x) = x  fun g(x) = f(x)  fun main(x) = beside(g(x), g(x))";
const MULT: &str = "fun mult(x, y, acc) = if or(equal(x, 0), equal(y, 0)) then acc
    else mult(double(x), halve(y), if lowbit(y) then add(acc, x) else acc)";

fn table(text: &str) -> Vec<u8> {
    assemble(text).expect("a text in order")
}

fn list(bytes: &[u8]) -> Vec<u16> {
    let tree = Tree::read(bytes).expect("an accepted table");
    arbiter_list(&tree).iter().map(|node| node.0).collect()
}

fn refused(number: u16, place: u16) -> Result<(), Refusal> {
    Err(Refusal { number, place: Node(place) })
}

/// Reading and circuit come to the same value, in this many steps.
fn answers(text: &str, arguments: &[u32], value: u32, count: u32) {
    let bytes = table(text);
    let tree = Tree::read(&bytes).expect("an accepted table");
    let wanted = Reading { value, count: count.into() };
    assert_eq!(read(&tree, arguments, count.into()), Some(wanted));
    assert_eq!(read(&tree, arguments, u64::from(count) - 1), None);
    let tags = tags_of(&bytes).expect("an accepted table");
    let mut state = State::zero();
    start(&bytes, &tags, arguments, &mut state).expect("a start");
    let begun = state.clone();
    assert_eq!(run_budget(&bytes, &tags, &mut state, u32::MAX), Ok((count, Ending::Answered(value))));
    // Answered is looked at before spent, and again before any step.
    assert_eq!(run_budget(&bytes, &tags, &mut state, 0), Ok((0, Ending::Answered(value))));
    let mut state = begun.clone();
    assert_eq!(run_budget(&bytes, &tags, &mut state, count), Ok((count, Ending::Answered(value))));
    let mut state = begun;
    assert_eq!(run_budget(&bytes, &tags, &mut state, count - 1), Ok((count - 1, Ending::Spent)));
}

#[test]
fn twice() {
    assert_eq!(list(&table(TWICE)), []);
    answers(TWICE, &[9], 9, 9);
    let tree = Tree::read(&table(TWICE)).expect("an accepted table");
    assert_eq!((tree.children(Node(2)), tree.children(Node(3))), (&[Node(3)][..], &[Node(4)][..]));
}

#[test]
fn beside() {
    assert_eq!(list(&table(BESIDE)), [3, 5]);
    answers(BESIDE, &[4], 4, 12);
}

/// Started with both tags, which the first six steps have too; the last one and those after it have others.
#[test]
fn beside_with_other_tags() {
    let bytes = table(BESIDE);
    let both = [0b10100];
    for (tags, number) in [(both, 22), ([0b10000], 22), ([0], 23), ([0b100], 23)] {
        let mut state = State::zero();
        start(&bytes, &both, &[4], &mut state).expect("a start");
        assert_eq!(run_list(&bytes, &both, &mut state, &[2, 3, 5, 4, 6, 3]), Ok((6, None)));
        let refusal = Refusal { number, place: Node(5) };
        assert_eq!(run_list(&bytes, &tags, &mut state, &[5]), Ok((0, Some(refusal))));
        let before = state.clone();
        assert_eq!(step(&bytes, &tags, &mut state, 5), Answer::Refused(refusal));
        assert!(state == before);
        assert_eq!(state.functions[0].occupant, Node(3));
        // The rest of the twelve steps, with the wait in between.
        assert_eq!(run_list(&bytes, &tags, &mut state, &[1, 3, 5, 1, 5]), Ok((5, None)));
        assert_eq!(step(&bytes, &tags, &mut state, 2), Answer::Answered(4));
        assert_eq!(run_list(&bytes, &tags, &mut state, &[]), Ok((0, None)));
        let past = Refusal { number: 20, place: Node(1) };
        assert_eq!(run_list(&bytes, &tags, &mut state, &[1]), Ok((0, Some(past))));
    }
}

/// All seven steps in one run under the tags of the start, and no start without both.
#[test]
fn beside_with_its_own_tags() {
    let bytes = table(BESIDE);
    let mut state = State::zero();
    start(&bytes, &[0b10100], &[4], &mut state).expect("a start");
    let refusal = Refusal { number: 22, place: Node(5) };
    assert_eq!(run_list(&bytes, &[0b10100], &mut state, &[2, 3, 5, 4, 6, 3, 5]), Ok((6, Some(refusal))));
    let before = state.clone();
    for (tags, place) in [(0b10000, 3), (0, 3), (0b100, 5)] {
        assert_eq!(start(&bytes, &[tags], &[4], &mut state), refused(26, place));
        assert!(state == before);
    }
}

#[test]
fn main_beside() {
    let bytes = table(MAIN_BESIDE);
    assert_eq!(list(&bytes), [2, 5, 7]);
    let text = "design 3 8\narbiter 1 2 2\narbiter 2 3 5\narbiter 2 3 7\ntotal 3\n";
    assert_eq!(program(&bytes), text);
    answers(MAIN_BESIDE, &[1], 1, 20);
}

#[test]
fn mult() {
    assert_eq!(list(&table(MULT)), []);
    answers(MULT, &[3, 0, 7], 7, 14);
    answers(MULT, &[5, 1, 0], 5, 44);
}

#[test]
fn self_call_as_its_own_argument() {
    assert_eq!(check(&table("fun main(x) = main(main(x))")), refused(9, 2));
    assert_eq!(program(&table("fun main(x) = main(main(x))")), "refused 9 2\n");
}

#[test]
fn fir() {
    let bytes = table(
        "fun mult1(x, y) = add(x, y)  fun mult2(x, y) = add(x, y)  fun read_next_value() = 1  fun write_value(v) = v
        fun FIR(x, y, z, w) = let o1 = mult1(x, 2), o2 = mult2(y, 3), next = read_next_value() in
        let o3 = mult1(x, 7), o4 = mult2(y, 9) in
        let written = write_value(add(add(add(o1, o2), o3), o4)) in FIR(y, z, w, next)",
    );
    assert_eq!(list(&bytes), []);
    let tree = Tree::read(&bytes).expect("an accepted table");
    assert_eq!(read(&tree, &[1, 2, 3, 4], 10000), None);
    let mut state = State::zero();
    let tags = tags_of(&bytes).expect("an accepted table");
    start(&bytes, &tags, &[1, 2, 3, 4], &mut state).expect("a start");
    assert_eq!(run_budget(&bytes, &tags, &mut state, 10000), Ok((10000, Ending::Spent)));
}

/// F functions, the last with one node more than its siblings until N is met, all of them besides.
fn sized(functions: usize, nodes: usize) -> Vec<u8> {
    let mut text = String::new();
    for function in 1..functions {
        text += &format!("fun f{function}() = 1\n");
    }
    let chain = nodes - functions;
    text += &format!("fun main() = {}1{}\n", "beside(".repeat(chain), ")".repeat(chain));
    table(&text)
}

#[test]
fn most_functions_and_nodes() {
    let mut bytes = sized(32, 512);
    assert_eq!(check(&bytes), Ok(()));
    bytes.extend([0; 10]);
    bytes[2..4].copy_from_slice(&513u16.to_le_bytes());
    assert_eq!(check(&bytes), refused(2, 0));
    let mut bytes = sized(32, 33);
    bytes[0] = 33;
    bytes.extend([0; 4]);
    assert_eq!(check(&bytes), refused(2, 0));
    for at in [0, 2] {
        let mut bytes = sized(1, 1);
        bytes[at] = 0;
        assert_eq!(check(&bytes), refused(2, 0));
    }
}

#[test]
fn short_and_long_tables() {
    for length in 0..4 {
        assert_eq!(check(&sized(1, 1)[..length]), refused(1, 0));
    }
    assert_eq!(check(&sized(1, 1)[..17]), refused(3, 0));
    assert_eq!(check(&[&sized(1, 1)[..], &[0]].concat()), refused(3, 0));
    assert_eq!(program(&[1, 0, 1]), "refused 1 0\n");
    assert_eq!(program(&[33, 0, 1, 0]), "refused 2 0\n");
}

#[test]
fn eight_parameters_and_nine() {
    let mut bytes = table("fun main(a, b, c, d, e, f, g, h) = h");
    assert_eq!(check(&bytes), Ok(()));
    bytes[4] = 9;
    assert_eq!(check(&bytes), refused(5, 0));
    assert!(assemble("fun main(a, b, c, d, e, f, g, h, i) = h").is_err());
}

#[test]
fn call_without_argument() {
    assert_eq!(list(&table("fun f() = 7  fun main() = f()")), []);
    answers("fun f() = 7  fun main() = f()", &[], 7, 4);
    answers("fun f() = 7  fun main() = beside(f(), f())", &[], 7, 10);
}
