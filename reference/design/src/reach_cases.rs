//! Designs with functions that main reaches and others, and what they come to, worked out by hand.

use crate::asm::assemble;

/// A design, the functions that main reaches, and the nodes of its arbiter list.
pub struct Case {
    pub text: &'static str,
    pub reached: &'static [u16],
    pub list: &'static [u16],
}

impl Case {
    pub fn bytes(&self) -> Vec<u8> {
        assemble(self.text).expect(self.text)
    }
}

const fn case(text: &'static str, reached: &'static [u16], list: &'static [u16]) -> Case {
    Case { text, reached, list }
}

pub const CASES: [Case; 27] = [
    case("fun main() = 1", &[1], &[]),
    case("fun f() = 1  fun main() = add(f(), f())", &[1, 2], &[3, 4]),
    // A spare function with parallel calls lists nothing, whether or not main calls what it calls.
    case("fun f() = 1  fun g() = add(f(), f())  fun main() = 1", &[3], &[]),
    case("fun f() = 1  fun g() = add(f(), f())  fun main() = f()", &[1, 3], &[]),
    case("fun f() = 1  fun g() = add(f(), f())  fun main() = g()", &[1, 2, 3], &[3, 4]),
    // Conflicts in functions reached through two levels and through three.
    case("fun f() = 1  fun g() = add(f(), f())  fun h() = g()  fun main() = h()", &[1, 2, 3, 4], &[3, 4]),
    case(
        "fun f() = 1  fun g() = add(f(), f())  fun h() = g()  fun i() = h()  fun main() = i()",
        &[1, 2, 3, 4, 5],
        &[3, 4],
    ),
    // Called, but only from a spare function, or from a chain of them.
    case("fun f() = 1  fun g() = add(f(), f())  fun h() = g()  fun main() = f()", &[1, 4], &[]),
    case("fun f() = 1  fun g() = add(f(), f())  fun h() = g()  fun i() = h()  fun main() = f()", &[1, 5], &[]),
    case("fun f() = 1  fun s() = f()  fun t() = add(s(), s())  fun main() = add(f(), 2)", &[1, 4], &[]),
    // A lone call in a reached body, which meets itself in a spare one alone: node 2 in g, called twice by h.
    case("fun f() = 1  fun g() = f()  fun h() = add(g(), g())  fun main() = g()", &[1, 2, 4], &[]),
    // It meets itself in main too: all of this is listed but for the calls in h.
    case("fun f() = 1  fun g() = f()  fun h() = add(g(), g())  fun main() = add(g(), g())", &[1, 2, 4], &[2, 7, 8]),
    case("fun f() = 1  fun g() = f()  fun s() = add(g(), f())  fun main() = add(g(), f())", &[1, 2, 4], &[2, 8]),
    // Spare functions below a reached one, above it, and on both sides; the reached one keeps its own conflict.
    case("fun f() = 1  fun s() = add(f(), f())  fun g() = add(f(), f())  fun main() = g()", &[1, 3, 4], &[6, 7]),
    case("fun f() = 1  fun g() = add(f(), f())  fun s() = add(g(), f())  fun main() = g()", &[1, 2, 4], &[3, 4]),
    case(
        "fun f() = 1  fun s() = add(f(), f())  fun g() = add(f(), f())  fun t() = add(s(), g())  fun main() = g()",
        &[1, 3, 5],
        &[6, 7],
    ),
    // Self calls reach nothing: not main's, and not that of a spare function, whose arguments count once it is called.
    case("fun f() = 1  fun main(x, y) = main(f(), f())", &[1, 2], &[3, 4]),
    case("fun f() = 1  fun g(x, y) = 2  fun h() = g(f(), f())  fun main() = main()", &[4], &[]),
    case("fun f() = 1  fun g(x) = g(add(f(), f()))  fun main() = f()", &[1, 3], &[]),
    case("fun f() = 1  fun g(x) = g(add(f(), f()))  fun main() = g(1)", &[1, 2, 3], &[4, 5]),
    // Any call in a reached body counts: in a branch, also one that is never taken, a condition, a let, an argument.
    case("fun f() = 1  fun g() = add(f(), f())  fun main() = if 1 then 2 else g()", &[1, 2, 3], &[3, 4]),
    case("fun f() = 1  fun g() = add(f(), f())  fun main() = if g() then 2 else 3", &[1, 2, 3], &[3, 4]),
    case("fun f() = 1  fun g() = add(f(), f())  fun main() = let a = g() in 2", &[1, 2, 3], &[3, 4]),
    case("fun f() = 1  fun g() = add(f(), f())  fun main() = let a = 2 in g()", &[1, 2, 3], &[3, 4]),
    case("fun f() = 1  fun g() = add(f(), f())  fun main(x) = main(g())", &[1, 2, 3], &[3, 4]),
    case("fun f(x) = 1  fun g() = add(f(1), f(2))  fun main() = f(g())", &[1, 2, 3], &[3, 5]),
    // A spare function with a let and a call of two arguments in conflict, beside a main that has both apart.
    case(
        "fun f() = 1  fun g(x, y) = x  fun s() = let a = f(), b = f() in g(f(), f())  fun main() = g(f(), 2)",
        &[1, 2, 4],
        &[],
    ),
];
