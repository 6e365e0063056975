//! The program as it is used: what it writes, what it says and how it exits.

use std::ffi::{OsStr, OsString};
use std::fs;
use std::path::{Path, PathBuf};
use std::process::{Command, Output};

fn asm<S: AsRef<OsStr>>(arguments: &[S]) -> Output {
    Command::new(env!("CARGO_BIN_EXE_asm")).args(arguments).output().expect("the program runs")
}

fn folder(name: &str) -> PathBuf {
    let folder = PathBuf::from(env!("CARGO_TARGET_TMPDIR")).join(name);
    fs::create_dir_all(&folder).expect("a folder");
    folder
}

/// What it said on standard error, which is one line; it exited with 1 and said nothing else.
fn error(output: &Output) -> String {
    assert_eq!(output.status.code(), Some(1));
    assert!(output.stdout.is_empty());
    let said = String::from_utf8_lossy(&output.stderr).into_owned();
    assert!(said.ends_with('\n') && said.lines().count() == 1, "{said:?}");
    said.trim_end().to_string()
}

/// A text is turned back with this line and message, and nothing is written: neither a new file nor over an old one.
fn says(folder: &Path, text: &[u8], line: usize, message: &str) {
    let (file, table) = (folder.join("bad.safl"), folder.join("bad.table"));
    fs::write(&file, text).expect("a text");
    let wanted = format!("{}:{line}: {message}", file.display());
    let _ = fs::remove_file(&table);
    assert_eq!(error(&asm(&[&file, &table])), wanted);
    assert!(!table.exists(), "{wanted}");
    fs::write(&table, "kept").expect("a file");
    assert_eq!(error(&asm(&[&file, &table])), wanted);
    assert_eq!(fs::read(&table).expect("a file"), b"kept");
}

#[test]
fn writes_the_table() {
    let folder = folder("writes");
    let (text, table) = (folder.join("one.safl"), folder.join("one.table"));
    fs::write(&text, "fun main() = 7\n").expect("a text");
    let wanted = [1, 0, 1, 0, 0, 0, 1, 0, 1, 0, 7, 0, 0, 0, 0, 0, 0, 0];
    let _ = fs::remove_file(&table);
    // The second time over the first.
    for _ in 0..2 {
        let output = asm(&[&text, &table]);
        assert!(output.status.success() && output.stderr.is_empty() && output.stdout.is_empty());
        assert_eq!(fs::read(&table).expect("a table"), wanted);
    }
}

#[test]
fn bad_tokens() {
    let folder = folder("tokens");
    let any = "expected a name, a number or one of `(),:=`, found";
    says(&folder, b"fun f(x) =\n x + 1\n", 2, &format!("{any} `+`"));
    says(&folder, b"fun f(x) = 'x'\n", 1, &format!("{any} `'`"));
    says(&folder, b"fun f(x) = x\n\0", 2, &format!("{any} `\\0`"));
    says(&folder, b"\xef\xbb\xbffun f(x) = x\n", 1, &format!("{any} `\\u{{feff}}`"));
    says(&folder, "fun f(x) = \u{e9}\n".as_bytes(), 1, &format!("{any} `\u{e9}`"));
    says(&folder, b"fun f() = 12y\n", 1, "expected a number from 0 to 4294967295, found `12y`");
    says(&folder, b"fun f() = 4294967296\n", 1, "expected a number from 0 to 4294967295, found `4294967296`");
    says(&folder, b"fun f() = 0x100000000\n", 1, "expected a number from 0 to 4294967295, found `0x100000000`");
    says(&folder, b"fun f() = 1\n\n# \xff\n", 3, "expected text in UTF-8, found byte 0xff");
    says(&folder, b"fun f() = 1\n\xc3", 2, "expected text in UTF-8, found byte 0xc3");
}

#[test]
fn missing_parentheses() {
    let folder = folder("parentheses");
    says(&folder, b"fun f(x) =\n add(x, 1\n\n", 3, "expected `,` or `)`, found the end of the text");
    says(&folder, b"fun f(x) =\n add(x, 1\nfun main() = 1\n", 3, "expected `,` or `)`, found `fun`");
    says(&folder, b"fun f(x = x\n", 1, "expected `,` or `)`, found `=`");
    says(&folder, b"fun f(x) = (x\n", 1, "expected `)`, found the end of the text");
    says(&folder, b"fun f x) = x\n", 1, "expected `(`, found `x`");
    says(&folder, b"fun f(x) = x)\n", 1, "expected `fun` or the end of the text, found `)`");
}

#[test]
fn unknown_names() {
    let folder = folder("names");
    let callee = "expected a primitive or a function defined so far, found";
    says(&folder, b"fun f(x) = x\nfun main() = f(y)\n", 2, "expected a parameter or a let name in scope, found `y`");
    says(&folder, b"fun main(x) =\n g(x)\n", 2, &format!("{callee} `g`"));
    let later = format!("{callee} `g`, which is defined later, on line 4");
    says(&folder, b"fun main(x) =\n g(x)\n\nfun g(x) = x\n", 2, &later);
    // A name that is no function's is unknown, also where it is called.
    says(&folder, b"fun main(x) = x(1)\nfun g(x) = x\n", 1, &format!("{callee} `x`"));
}

#[test]
fn counts() {
    let folder = folder("counts");
    says(&folder, b"fun f(x) = x\nfun main(x) =\n f(x, x)\n", 3, "expected 1 argument of `f`, found 2");
    says(&folder, b"fun f(x) = x\nfun main(x) = f()\n", 2, "expected 1 argument of `f`, found 0");
    says(&folder, b"fun f(x) = less(x)\n", 1, "expected 2 arguments of `less`, found 1");
    let nine = b"fun f(a, b, c, d,\n e, f, g, h, i) = 1\n";
    says(&folder, nine, 2, "expected at most 8 parameters, found `i` too");
    let functions: String = (1..=33).map(|number| format!("fun f{number}() = 1\n")).collect();
    says(&folder, functions.as_bytes(), 33, "expected at most 32 functions, found another");
    let nodes = format!("fun f() =\n{}1{}", "double(\n".repeat(512), ")".repeat(512));
    says(&folder, nodes.as_bytes(), 514, "expected at most 512 nodes, found another");
}

#[test]
fn widths() {
    let folder = folder("widths");
    let (text, table) = (folder.join("narrow.safl"), folder.join("narrow.table"));
    fs::write(&text, "fun main(): 4 = 15\n").expect("a text");
    assert!(asm(&[&text, &table]).status.success());
    assert_eq!(fs::read(&table).expect("a table"), [1, 0, 1, 0, 0, 4, 1, 0, 1, 0, 15, 0, 0, 0, 0, 0, 0, 0]);
    says(&folder, b"fun f(x): 0 = x\n", 1, "expected a width from 1 to 32, found `0`");
    says(&folder, b"fun f(x)\n  : 33 = x\n", 2, "expected a width from 1 to 32, found `33`");
    says(&folder, b"fun f(x): = x\n", 1, "expected a width from 1 to 32, found `=`");
    says(&folder, b"fun f(x): four = x\n", 1, "expected a width from 1 to 32, found `four`");
    says(&folder, b"fun f(x): 4 x\n", 1, "expected `=`, found `x`");
}

#[test]
fn no_function_at_all() {
    let folder = folder("nothing");
    says(&folder, b"", 1, "expected `fun`, found the end of the text");
    says(&folder, b"# a comment\n\n# another\n", 3, "expected `fun`, found the end of the text");
    says(&folder, b"\nmain(x) = x\n", 2, "expected `fun`, found `main`");
}

#[test]
fn files_that_cannot_be_read() {
    let folder = folder("unreadable");
    let table = folder.join("out.table");
    for text in [folder.join("no-such-file.safl"), folder.clone()] {
        let said = error(&asm(&[&text, &table]));
        assert!(said.starts_with(&format!("{}: expected a file to read: ", text.display())), "{said}");
        assert!(!table.exists());
    }
}

#[test]
fn outputs_that_cannot_be_written() {
    let folder = folder("unwritable");
    let text = folder.join("one.safl");
    fs::write(&text, "fun main() = 7\n").expect("a text");
    for table in [folder.join("no-such-folder/out.table"), folder.clone(), PathBuf::from("/dev/full"), PathBuf::new()] {
        let said = error(&asm(&[&text, &table]));
        assert!(said.starts_with(&format!("{}: expected a file to write: ", table.display())), "{said}");
    }
    assert!(!folder.join("no-such-folder").exists());
}

#[test]
fn the_text_is_not_written_over() {
    let folder = folder("same");
    let text = folder.join("one.safl");
    fs::write(&text, "fun main() = 7\n").expect("a text");
    for table in [text.clone(), folder.join(".").join("one.safl")] {
        assert_eq!(
            error(&asm(&[&text, &table])),
            format!("{}: expected an output other than the text", table.display())
        );
        assert_eq!(fs::read(&text).expect("a text"), b"fun main() = 7\n");
    }
}

#[test]
fn wrong_use() {
    for arguments in [&[][..], &["one"], &["one", "two", "three"]] {
        assert_eq!(error(&asm(arguments)), "expected two arguments: asm FILE.safl OUT.table");
    }
}

#[cfg(unix)]
#[test]
fn names_that_are_no_texts() {
    use std::os::unix::ffi::OsStringExt;
    let folder = folder("odd");
    let odd = |name: &[u8]| folder.join(OsString::from_vec(name.to_vec()));
    let (text, table) = (odd(b"odd\xff.safl"), odd(b"odd\xff.table"));
    fs::write(&text, "fun main() = 7\n").expect("a text");
    assert!(asm(&[&text, &table]).status.success());
    assert!(table.exists());
    assert!(error(&asm(&[&odd(b"none\xff.safl"), &table])).contains(": expected a file to read: "));
}
