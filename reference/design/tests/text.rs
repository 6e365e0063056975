//! What the assembler says of texts that are not in order.

use design::asm::{assemble, disassemble};

fn says(text: &str, line: usize, message: &str) {
    let error = assemble(text).expect_err(text);
    assert_eq!((error.line, error.message.as_str()), (line, message));
    assert_eq!(error.to_string(), format!("line {line}: {message}"));
}

#[test]
fn errors_name_the_line_and_what_was_expected() {
    says("", 1, "expected `fun`, found the end of the text");
    says("# a comment\n\nadd(1, 2)", 3, "expected `fun`, found `add`");
    says("fun", 1, "expected a function name, found the end of the text");
    says("fun f = 1", 1, "expected `(`, found `=`");
    says("fun f(x x) = 1", 1, "expected `,` or `)`, found `x`");
    says("fun f(x, x) = 1", 1, "expected a new parameter name, found `x` again");
    says("fun f(1) = 1", 1, "expected a parameter name, found `1`");
    says("fun f(x)\n1", 2, "expected `:` or `=`, found `1`");
    says("fun f(x) = y", 1, "expected a parameter or a let name in scope, found `y`");
    says("fun f(x) = g(x)", 1, "expected a primitive or a function defined so far, found `g`");
    let later = "expected a primitive or a function defined so far, found `g`, which is defined later, on line 3";
    says("fun f(x) =\n  g(x)\nfun g(x) = x", 2, later);
    says("fun f(x) = x\nfun f(x) = x", 2, "expected a new function name, found `f` again");
    says("fun add(x) = x", 1, "expected a new function name, found `add` again");
    says("fun f(x) =\n\n  if x then 1", 3, "expected `else`, found the end of the text");
    says("fun f(x) = let a = 1 b = 2 in a", 1, "expected `,` or `in`, found `b`");
    says("fun f(x) = let a = 1, a = 2 in a", 1, "expected a new let name, found `a` again");
    says("fun f(x) = let a = 1, b = a in b", 1, "expected a parameter or a let name in scope, found `a`");
    says("fun f(x) = add(x)", 1, "expected 2 arguments of `add`, found 1");
    says("fun f(x) = double(x, x)", 1, "expected 1 argument of `double`, found 2");
    says("fun f(x) = beside()", 1, "expected 1 to 8 arguments of `beside`, found 0");
    says("fun f(x) = f(\nx, x)", 1, "expected 1 argument of `f`, found 2");
    says("fun f(x) = 4294967296", 1, "expected a number from 0 to 4294967295, found `4294967296`");
    says("fun f(x) = 1x", 1, "expected a number from 0 to 4294967295, found `1x`");
    says("fun f(x) = x + 1", 1, "expected a name, a number or one of `(),:=`, found `+`");
    says("fun f(x) = x x", 1, "expected `fun` or the end of the text, found `x`");
    says("fun f(x) = )", 1, "expected an expression, found `)`");
    let nine = "fun f(a, b, c, d, e, g, h, i, j) = 1";
    says(nine, 1, "expected at most 8 parameters, found `j` too");
    let nine = "fun f() = let a = 1, b = 1, c = 1, d = 1, e = 1, f = 1, g = 1, h = 1, i = 1 in i";
    says(nine, 1, "expected at most 8 let names, found `i` too");
}

#[test]
fn texts_past_the_limits() {
    let functions = |count: usize| (0..count).map(|i| format!("fun f{i}() = 1\n")).collect::<String>();
    assert!(assemble(&functions(32)).is_ok());
    says(&functions(33), 33, "expected at most 32 functions, found another");
    let chain = |nodes: usize| format!("fun f() = {}1{}", "double(".repeat(nodes - 1), ")".repeat(nodes - 1));
    assert!(assemble(&chain(512)).is_ok());
    says(&chain(513), 1, "expected at most 512 nodes, found another");
    says(&format!("fun f() = {}", "(".repeat(100000)), 1, "expected less nesting");
}

#[test]
fn numbers_and_brackets() {
    let same = |one: &str, other: &str| assert_eq!(assemble(one), assemble(other));
    same("fun f() = 0xff", "fun f() = 255");
    same("fun f() = ((255))  # brackets make no nodes", "fun f() = 255");
    same("fun f(x) = let x = x in x", "fun f(y) = let z = y in z");
}

/// A function's width is its second byte; without one it is 0.
#[test]
fn widths() {
    let byte = |head: &str| assemble(&format!("{head} = 1")).expect(head)[5];
    assert_eq!(byte("fun f()"), 0);
    for width in 1..=32 {
        assert_eq!(byte(&format!("fun f(): {width}")), width);
        assert_eq!(byte(&format!("fun f(x, y)\n:{width:#x}")), width);
    }
    let text = "fun f1(p0): 4 = p0\nfun f2() = 7\nfun main(p0, p1): 32 = f1(p1)\n";
    let bytes = assemble(text).expect(text);
    assert_eq!([bytes[5], bytes[9], bytes[13]], [4, 0, 32]);
    assert_eq!(disassemble(&bytes).as_deref(), Ok(text));
    // A constant that is too wide is the table check's.
    assert!(assemble("fun f(): 4 = 16").is_ok());
}

#[test]
fn widths_that_are_none() {
    for found in ["0", "33", "64", "255", "256", "4294967295", "w", "=", "(", ":", "if"] {
        says(&format!("fun f(x):\n{found} = x"), 2, &format!("expected a width from 1 to 32, found `{found}`"));
    }
    says("fun f(x):", 1, "expected a width from 1 to 32, found the end of the text");
    says("fun f(x): 4 x", 1, "expected `=`, found `x`");
    says("fun f(x): 4: 4 = x", 1, "expected `=`, found `:`");
    says("fun f: 4 = 1", 1, "expected `(`, found `:`");
    says("fun f(x: 4) = x", 1, "expected `,` or `)`, found `:`");
    says("fun f() = 1: 4", 1, "expected `fun` or the end of the text, found `:`");
    says("fun f() = let a: 4 = 1 in a", 1, "expected `=`, found `:`");
}
