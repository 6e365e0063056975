//! Refusals 4 to 9 and 25 one by one, with the place each of them names.

use design::asm::assemble;
use design::{check, Node, Refusal};

/// Fields of a node record by their offset.
const KIND: usize = 0;
const EXTRA: usize = 1;
const WORD: usize = 2;
const FIRST: usize = 6;
const NEXT: usize = 8;

struct Bytes(Vec<u8>);

fn table(text: &str) -> Bytes {
    Bytes(assemble(text).expect("a text in order"))
}

impl Bytes {
    fn function(mut self, function: usize, offset: usize, new: u8) -> Bytes {
        self.0[4 * function + offset] = new;
        self
    }

    fn node(mut self, node: usize, offset: usize, new: u8) -> Bytes {
        let functions = usize::from(self.0[0]);
        self.0[4 + 4 * functions + 10 * (node - 1) + offset] = new;
        self
    }

    fn refused(self, number: u16, place: u16) {
        assert_eq!(check(&self.0), Err(Refusal { number, place: Node(place) }));
    }

    fn accepted(self) {
        assert_eq!(check(&self.0), Ok(()));
    }
}

/// Nodes 1; 2 beside, 3 and 4 its children.
fn pair() -> Bytes {
    table("fun f(x) = x  fun main(x) = beside(x, x)")
}

#[test]
fn roots_firsts_and_nexts() {
    pair().accepted();
    pair().function(1, 2, 0).refused(4, 0);
    pair().function(2, 2, 5).refused(4, 0);
    pair().function(2, 3, 1).refused(4, 0);
    // Node 2 is named by no one, node 1 twice.
    pair().function(2, 2, 1).refused(4, 1);
    // Node 1 is then named by no one.
    pair().function(1, 2, 3).refused(4, 1);
    pair().node(2, FIRST, 0).refused(4, 3);
    pair().node(2, FIRST, 2).refused(4, 2);
    pair().node(2, FIRST, 5).refused(4, 2);
    pair().node(3, NEXT, 0).refused(4, 4);
    pair().node(3, NEXT, 3).refused(4, 3);
    pair().node(3, FIRST, 4).refused(4, 4);
    // A link backwards counts as a naming of what it leads to.
    pair().node(4, NEXT, 1).refused(4, 1);
    pair().node(4, NEXT, 3).refused(4, 3);
    pair().node(4, NEXT + 1, 1).refused(4, 4);
}

#[test]
fn a_root_with_a_next() {
    // Node 4 hangs at root 2 and at nothing else.
    pair().node(3, NEXT, 0).node(2, NEXT, 4).refused(4, 2);
    pair().node(1, NEXT, 4).refused(4, 1);
    // The node comes after the function records.
    pair().node(1, NEXT, 4).function(2, 2, 9).refused(4, 0);
}

#[test]
fn fields_that_have_to_be_zero() {
    pair().function(1, 0, 9).refused(5, 0);
    pair().function(2, 1, 33).refused(5, 0);
    pair().node(3, KIND, 0).refused(5, 3);
    pair().node(3, KIND, 8).refused(5, 3);
    pair().node(2, EXTRA, 11).refused(5, 2);
    pair().node(2, WORD + 3, 1).refused(5, 2);
    pair().node(4, WORD, 1).refused(5, 4);
    pair().node(4, WORD, 1).node(3, KIND, 9).refused(5, 3);
    // The records come before the nodes, and links before both.
    pair().node(3, KIND, 9).function(2, 1, 33).refused(5, 0);
    pair().function(2, 1, 33).node(3, NEXT, 0).refused(4, 4);
    let every = || table("fun f() = let a = 1 in if a then f() else add(2, 3)");
    every().accepted();
    // 1 let, 2 constant, 3 if, 4 bound, 5 call, 6 add, 7 and 8 constants.
    for node in [1, 2, 3, 4, 5] {
        every().node(node, EXTRA, 1).refused(5, node as u16);
    }
    for node in [1, 3, 6] {
        every().node(node, WORD, 1).refused(5, node as u16);
    }
    // A child below a constant, a parameter or a bound.
    for kind in [1, 2, 7] {
        table("fun f(x) = beside(x)").node(1, KIND, kind).node(1, EXTRA, 0).refused(5, 1);
    }
}

#[test]
fn callees() {
    let pair = || table("fun f(x) = x  fun g(x) = f(x)  fun main(x) = g(x)");
    pair().accepted();
    pair().node(2, WORD, 0).refused(6, 2);
    pair().node(2, WORD, 3).refused(6, 2);
    pair().node(2, WORD + 2, 1).refused(6, 2);
    pair().node(2, WORD + 3, 128).refused(6, 2);
    pair().node(2, WORD, 2).accepted();
    pair().node(4, WORD, 4).refused(6, 4);
}

/// Those of primitives are in `operations.rs`.
#[test]
fn numbers_of_children() {
    let one = || table("fun f(x) = x  fun main(x) = f(x)");
    one().function(1, 0, 2).refused(7, 2);
    // A parameter out of range comes later than a wrong number of children.
    one().function(1, 0, 0).refused(7, 2);
    for count in 1..=8 {
        let bytes = || table(&format!("fun main(x) = beside({})", vec!["x"; count].join(", "))).node(1, EXTRA, 0);
        let with_kind = |kind: u8| bytes().node(1, KIND, kind);
        if count == 3 {
            with_kind(5).accepted()
        } else {
            with_kind(5).refused(7, 1)
        };
        if count > 1 {
            with_kind(6).accepted()
        } else {
            with_kind(6).refused(7, 1)
        };
    }
    table("fun main(x) = let a = 1, b = 1, c = 1, d = 1, e = 1, f = 1, g = 1, h = 1 in h").accepted();
    // A let of ten: the last child gets another one after it.
    table("fun main(x) = let a = 1, b = 1, c = 1, d = 1, e = 1, f = 1, g = 1, h = double(1) in h")
        .node(9, KIND, 1)
        .node(9, EXTRA, 0)
        .node(9, FIRST, 0)
        .node(9, NEXT, 10)
        .node(10, NEXT, 11)
        .refused(7, 1);
}

#[test]
fn parameters_out_of_range() {
    table("fun main(x) = x").node(1, EXTRA, 1).refused(8, 1);
    table("fun main(x) = x").function(1, 0, 0).refused(8, 1);
    table("fun main(x, y) = beside(x, y)").function(1, 0, 1).refused(8, 3);
}

#[test]
fn bounds_out_of_scope() {
    // 1 let, 2 and 3 definientia, 4 beside, 5 and 6 bounds.
    let both = || table("fun main() = let a = 1, b = 2 in beside(a, b)");
    both().node(5, WORD, 3).accepted();
    for definiens in [0, 1, 4, 5, 6, 7] {
        both().node(5, WORD, definiens).refused(8, 5);
    }
    both().node(6, WORD + 1, 1).refused(8, 6);
    both().node(6, WORD + 2, 1).refused(8, 6);
    // A definiens doesn't see its sibling, nor itself.
    both().node(3, KIND, 7).refused(8, 3);
    both().node(3, KIND, 7).node(3, WORD, 3).refused(8, 3);
    // Nested: 1 let, 2 a, 3 let, 4 b, 5 body. The inner definiens and the inner body both see a.
    let nested = || table("fun main() = let a = 1 in let b = a in b");
    nested().accepted();
    nested().node(5, WORD, 2).accepted();
    nested().node(4, WORD, 4).refused(8, 4);
    // A let inside a definiens is over when the body comes: 1 let, 2 let, 3 c, 4 c's body, 5 body.
    let inner = || table("fun main() = let a = let c = 1 in c in a");
    inner().accepted();
    inner().node(5, WORD, 3).refused(8, 5);
    inner().node(4, WORD, 2).refused(8, 4);
    // Another function's definiens: 1 let, 2 a, 3 body; 4 let, 5 b, 6 body.
    table("fun f() = let a = 1 in a  fun main() = let b = 1 in b").node(6, WORD, 2).refused(8, 6);
    // A body that is the bound itself, and the condition of an if, which is no definiens.
    table("fun main() = let a = 1 in a").accepted();
    table("fun main() = if 1 then 2 else 3").node(3, KIND, 7).refused(8, 3);
}

#[test]
fn self_calls_out_of_tail_position() {
    table("fun f(x) = if x then f(x) else let a = x in f(a)").accepted();
    table("fun f(x) = if f(x) then 1 else 2").refused(9, 2);
    table("fun f(x) = let a = f(x) in a").refused(9, 2);
    table("fun f(x) = beside(f(x))").refused(9, 2);
    table("fun f(x) = f(f(x))").refused(9, 2);
    table("fun g(x) = x  fun f(x) = g(f(x))").refused(9, 3);
    // An if in an argument is no tail position, and neither are its branches.
    table("fun f(x) = double(if x then f(x) else x)").refused(9, 4);
    table("fun f(x) = let a = let b = 1 in f(b) in f(a)").refused(9, 4);
}

#[test]
fn width_bytes() {
    for byte in 0..=32 {
        pair().function(1, 1, byte).accepted();
        pair().function(2, 1, byte).accepted();
    }
    for byte in 33..=255 {
        pair().function(1, 1, byte).refused(5, 0);
        pair().function(2, 1, byte).refused(5, 0);
        pair().function(2, 1, byte).node(3, KIND, 9).refused(5, 0);
        // What comes later isn't looked at, whatever 2^255 would be.
        table("fun main(): 4 = 16").function(1, 1, byte).refused(5, 0);
    }
}

#[test]
fn constants_too_wide() {
    let one = |width: u8, value: u32| table(&format!("fun main(): {width} = {value}"));
    for width in 1..=31 {
        one(width, 0).accepted();
        one(width, (1 << width) - 1).accepted();
        one(width, 1 << width).refused(25, 1);
        one(width, (1 << width) + 1).refused(25, 1);
        one(width, 1 << 31).refused(25, 1);
        one(width, u32::MAX).refused(25, 1);
    }
    for width in [0, 32] {
        one(32, u32::MAX).function(1, 1, width).accepted();
    }
    one(4, 15).accepted();
    one(4, 16).refused(25, 1);
    // The width is that of the function that the constant is in, not that of a caller or callee.
    let two = |f: u8, main: u8| table(&format!("fun f(x): {f} = add(x, 9)  fun main(): {main} = f(6)"));
    two(4, 3).accepted();
    two(3, 4).refused(25, 3);
    two(4, 2).refused(25, 5);
    two(3, 2).refused(25, 3);
    // The lowest node, though it is of the later function: 1 main's root, 2 f's.
    table("fun f(): 4 = 16  fun main(): 4 = 17").function(1, 2, 2).function(2, 2, 1).refused(25, 1);
    // A callee and a definiens are no constants: node 3 is a call of function 2, node 4 a bound of node 2.
    table("fun a() = 1  fun b(): 1 = let c = 1 in c  fun main(): 1 = b()").accepted();
}

#[test]
fn wide_constants_come_last() {
    // 9, also where it is at a higher node; 8, 7, 6 and 5 too.
    table("fun main(x): 4 = if 16 then x else beside(main(1))").refused(9, 5);
    table("fun main(x): 4 = if 15 then x else beside(main(16))").refused(9, 5);
    table("fun main(x): 4 = add(16, x)").node(3, EXTRA, 1).refused(8, 3);
    table("fun main(x): 4 = add(16, x)").node(1, EXTRA, 5).refused(7, 1);
    table("fun main(x): 4 = if 16 then main(x) else 1").node(3, WORD, 2).refused(6, 3);
    table("fun main(x): 4 = add(16, x)").node(3, KIND, 9).refused(5, 3);
    table("fun main(x): 4 = add(16, x)").function(1, 0, 9).refused(5, 0);
    table("fun main(x): 4 = add(16, x)").node(2, NEXT, 0).refused(4, 3);
    table("fun main(x): 4 = add(16, x)").refused(25, 2);
}
