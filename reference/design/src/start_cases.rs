//! Starts that were worked out by hand: which calls have to be tagged, and what is refused before that. And states that
//! no start leads to, in which a call has to wait without a tag though the tags hold the list.

use numbers::{BUSY, DONE, IDLE, OPEN};

use crate::asm::assemble;
use crate::circuit::State;
use crate::first_cases::{listed, standing, BESIDE, HELD, THREE};
use crate::list::{tag_bytes, Calls};
use crate::table::{Node, Refusal, Table};
use crate::tree::Tree;

/// What a start is handed, and what it says.
pub struct StartCase {
    pub name: String,
    pub bytes: Vec<u8>,
    pub tags: Vec<u8>,
    pub arguments: Vec<u32>,
    pub answer: Result<(), Refusal>,
}

/// A design, its arbiter list, and by the calls that are tagged the place of 26; 0 stands for a start.
pub struct Listed {
    pub text: String,
    pub list: Vec<u16>,
    pub starts: Vec<(Vec<u16>, u16)>,
}

/// Nodes 1; 2 call of f, 3; 4 beside; 5 call of g, 6; 7 call of g, 8.
const MAIN_BESIDE: &str = "fun f(x) = x  fun g(x) = f(x)  fun main(x) = beside(g(x), g(x))";

/// Nodes 1; 2 call, 3 call, 4.
const TWICE: &str = "fun f(x) = x  fun main(x) = f(f(x))";

/// Nodes 1; 2 call of f, 3, in a body that main doesn't reach; 4 beside; 5 call of f, 6; 7 call of f, 8.
const SPARE: &str = "fun f(x) = x  fun s(x) = f(x)  fun main(x) = beside(f(x), f(x))";

/// Nodes 1; 2; 3 call of g, 4 call of g, 5 beside; 6 call of f, 7; 8 call of f, 9.
const AROUND: &str = "fun f(x) = x  fun g(x) = x  fun main(x) = g(g(beside(f(x), f(x))))";

/// Nodes 1; 2 let; 3 call, 4; 5 call, 6.
const AFTER: &str = "fun f(x) = x  fun main(x) = let a = f(x) in f(a)";

/// Nodes 1; 2 if; 3 call, 4; 5 call, 6; 7 call, 8.
const BRANCHES: &str = "fun f(x) = x  fun main(x) = if f(x) then f(1) else f(2)";

type Starts = &'static [(&'static [u16], u16)];

const LISTED: [(&str, &[u16], Starts); 20] = [
    (BESIDE, &[3, 5], &[(&[], 3), (&[3], 5), (&[5], 3), (&[3, 5], 0)]),
    (THREE, &[3, 5, 7], &[(&[], 3), (&[3, 5], 7), (&[3, 7], 5), (&[5, 7], 3), (&[7], 3), (&[3, 5, 7], 0)]),
    // The call at 2 is the only one of f, and is listed all the same.
    (MAIN_BESIDE, &[2, 5, 7], &[(&[], 2), (&[5, 7], 2), (&[2, 7], 5), (&[2, 5], 7), (&[2], 5), (&[2, 5, 7], 0)]),
    // More tags than the list, which don't make up for one that is missing.
    (HELD, &[2, 7], &[(&[2, 7], 0), (&[2, 5, 7], 0), (&[5], 2), (&[5, 7], 2), (&[2, 5], 7), (&[2], 7)]),
    (AROUND, &[6, 8], &[(&[6, 8], 0), (&[3, 6, 8], 0), (&[3, 4, 6, 8], 0), (&[3, 4], 6), (&[3, 4, 6], 8)]),
    // Nothing has to be tagged.
    (TWICE, &[], &[(&[], 0), (&[2], 0), (&[3], 0), (&[2, 3], 0)]),
    (AFTER, &[], &[(&[], 0), (&[3, 5], 0)]),
    (BRANCHES, &[], &[(&[], 0), (&[5], 0), (&[3, 5, 7], 0)]),
    ("fun main() = 1", &[], &[(&[], 0)]),
    ("fun main(x) = if x then main(halve(x)) else 9", &[], &[(&[], 0)]),
    // A tag out of reach is welcome, and none is asked for there.
    (SPARE, &[5, 7], &[(&[5, 7], 0), (&[2, 5, 7], 0), (&[2], 5), (&[2, 7], 5), (&[2, 5], 7), (&[], 5)]),
    // Calls of a body that main doesn't reach, which all bodies together would list: 3 and 4, before main's own.
    (
        "fun f() = 1  fun s() = add(f(), f())  fun main() = add(f(), f())",
        &[6, 7],
        &[(&[], 6), (&[3, 4], 6), (&[6, 7], 0)],
    ),
    ("fun f() = 1  fun s() = add(f(), f())  fun main() = f()", &[], &[(&[], 0), (&[3], 0), (&[3, 4, 5], 0)]),
    // The call at 2 is in a body that main reaches, but meets itself in one alone that main doesn't reach.
    (
        "fun f() = 1  fun g() = f()  fun h() = add(g(), g())  fun main() = g()",
        &[],
        &[(&[], 0), (&[4, 5], 0), (&[2], 0)],
    ),
    (
        "fun f() = 1  fun g() = f()  fun h() = add(g(), g())  fun main() = add(g(), f())",
        &[2, 8],
        &[(&[], 2), (&[4, 5], 2), (&[2], 8), (&[2, 7], 8), (&[2, 4, 5], 8), (&[2, 8], 0)],
    ),
    // Reached through two levels, and in the arguments of a self call.
    (
        "fun f() = 1  fun g() = add(f(), f())  fun h() = g()  fun main() = h()",
        &[3, 4],
        &[(&[], 3), (&[5, 6], 3), (&[3, 4], 0)],
    ),
    ("fun f() = 1  fun main(x, y) = main(f(), f())", &[3, 4], &[(&[], 3), (&[3], 4), (&[3, 4], 0)]),
    ("fun f() = 1  fun main() = let a = f(), b = f() in f()", &[3, 4], &[(&[5], 3), (&[3, 5], 4), (&[3, 4], 0)]),
    // The lowest node, and not the one of the first record, which is that of f at 5.
    (
        "fun f() = 1  fun g() = 2  fun main() = beside(g(), f(), g(), f())",
        &[4, 5, 6, 7],
        &[(&[], 4), (&[4], 5), (&[5, 7], 4), (&[4, 5, 7], 6), (&[4, 5, 6], 7), (&[4, 6], 5), (&[4, 5, 6, 7], 0)],
    ),
    // In the second byte alone, and on both sides of its beginning.
    (
        "fun f() = 1  fun main() = beside(1, 1, 1, 1, 1, f(), f())",
        &[8, 9],
        &[(&[], 8), (&[8], 9), (&[9], 8), (&[8, 9], 0)],
    ),
];

/// Where the second of two listed calls is, the first being at 3: at ends of bytes and of words.
const FAR: [u16; 14] = [7, 8, 9, 16, 17, 63, 64, 65, 128, 255, 256, 257, 511, 512];

/// Two calls of f that run together, the second at this node.
fn far(second: u16) -> Listed {
    let between = usize::from(second) - 5;
    let (open, close) = ("double(".repeat(between), ")".repeat(between));
    // Mostly not the last node.
    let after = if second < 512 { ", 2" } else { "" };
    Listed {
        text: format!("fun f() = 1  fun main() = beside(f(), {open}1{close}, f(){after})"),
        list: vec![3, second],
        starts: vec![(vec![], 3), (vec![3], second), (vec![second], 3), (vec![3, second], 0)],
    }
}

/// The designs with their lists.
pub fn designs() -> Vec<Listed> {
    let named = LISTED.iter().map(|(text, list, starts)| Listed {
        text: text.to_string(),
        list: list.to_vec(),
        starts: starts.iter().map(|(tagged, place)| (tagged.to_vec(), *place)).collect(),
    });
    named.chain(FAR.into_iter().map(far)).collect()
}

fn table(text: &str) -> Vec<u8> {
    assemble(text).expect(text)
}

/// The tags of these nodes.
fn tags(bytes: &[u8], nodes: &[u16]) -> Vec<u8> {
    let tree = Tree::read(bytes).expect("an accepted table");
    tag_bytes(&tree, &nodes.iter().copied().map(Node).collect::<Calls>())
}

/// All starts: those of the designs with as many arguments as main has parameters, and those in which something comes
/// before 26.
pub fn cases() -> Vec<StartCase> {
    let mut cases = before();
    for Listed { text, starts, .. } in designs() {
        let bytes = table(&text);
        let main = Table::new(&bytes).functions().last().expect("main");
        let arguments = vec![4; Table::new(&bytes).parameter_count(main).into()];
        for (tagged, place) in starts {
            let answer = match place {
                0 => Ok(()),
                _ => Err(Refusal { number: 26, place: Node(place) }),
            };
            let (tags, arguments) = (tags(&bytes, &tagged), arguments.clone());
            cases.push(StartCase {
                name: format!("{text} with tags at {tagged:?}"),
                bytes: bytes.clone(),
                tags,
                arguments,
                answer,
            });
        }
    }
    cases
}

/// What comes before 26: the table, then 10, then 11. In all of these a listed call has no tag.
fn before() -> Vec<StartCase> {
    let mut cases = Vec::new();
    let mut case = |name: &str, bytes: &[u8], tags: &[u8], arguments: &[u32], (number, place)| {
        cases.push(StartCase {
            name: name.to_string(),
            bytes: bytes.to_vec(),
            tags: tags.to_vec(),
            arguments: arguments.to_vec(),
            answer: Err(Refusal { number, place: Node(place) }),
        });
    };
    let beside = table(BESIDE);
    for arguments in [&[][..], &[1, 2], &[1, 2, 3, 4, 5, 6, 7, 8], &[0; 9]] {
        case("11 with no tag", &beside, &[0], arguments, (11, 0));
        case("11 with one of two tags", &beside, &[0b100], arguments, (11, 0));
        case("10 for the length", &beside, &[], arguments, (10, 0));
        case("10 at a node", &beside, &[0b1], arguments, (10, 1));
    }
    for (tags, place) in [
        (&[][..], 0),
        (&[0, 0], 0),
        (&[0b100, 0], 0),
        // Past N, also where another tag is astray.
        (&[0b100_0000], 0),
        (&[0b1000_0100], 0),
        (&[0b100_0001], 0),
        // At the parameter of f, main's root and the arguments, lower and higher than the call that lacks a tag.
        (&[0b1], 1),
        (&[0b10_0001], 1),
        (&[0b10], 2),
        (&[0b110], 2),
        (&[0b1000], 4),
        (&[0b10_0100], 6),
    ] {
        case("10 and a listed call without a tag", &beside, tags, &[4], (10, place));
    }
    let again = table("fun f() = 1  fun main(x, y) = main(f(), f())");
    case("10 at a self call", &again, &[0b10], &[1, 2], (10, 2));
    case("10 at a self call, with one of two tags", &again, &[0b110], &[1, 2], (10, 2));

    // Nodes 1; 2 beside; 3 call, 4; 5 call, 6.
    let wide = table("fun f(x): 4 = x  fun main(): 4 = beside(f(16), f(1))");
    let fits = table("fun f(x): 4 = x  fun main(): 4 = beside(f(15), f(1))");
    let astray = table("fun f(x) = x  fun main(x) = beside(f(x), f(x), main(x))");
    case("the same with a constant that fits", &fits, &[0], &[], (26, 3));
    for (tags, arguments) in [(&[0][..], &[][..]), (&[0b100], &[]), (&[0], &[1]), (&[], &[]), (&[1], &[1, 2])] {
        case("a wide constant", &wide, tags, arguments, (25, 4));
        case("a self call out of tail position", &astray, tags, arguments, (9, 7));
        case("a byte too few", &beside[..beside.len() - 1], tags, arguments, (3, 0));
        case("a byte too many", &[&beside[..], &[0]].concat(), tags, arguments, (3, 0));
        case("no function", &[&[0], &beside[1..]].concat(), tags, arguments, (2, 0));
        case("three bytes", &beside[..3], tags, arguments, (1, 0));
    }
    cases
}

/// A state in which the call at a node has to wait, and has no tag, though each listed call has one.
pub struct WaitCase {
    pub name: &'static str,
    pub text: &'static str,
    pub before: State,
    pub node: u16,
    more: &'static [u16],
}

impl WaitCase {
    /// Its table, and tags: the arbiter list, in one of them with a call more.
    pub fn table(&self) -> (Vec<u8>, Vec<u8>) {
        let (bytes, list) = listed(self.text);
        let more = tags(&bytes, self.more);
        let both = list.iter().zip(more).map(|(list, more)| list | more).collect();
        (bytes, both)
    }

    fn more(mut self, nodes: &'static [u16]) -> WaitCase {
        self.more = nodes;
        self
    }
}

/// No start leads to these states: from one, who has to wait is on the list.
pub fn waits() -> Vec<WaitCase> {
    let case = |name, text, nodes: &[(u8, bool, u32)], (function, occupant): (usize, u16), node| {
        let mut before = standing(nodes, 0);
        before.functions[function - 1].occupant = Node(occupant);
        WaitCase { name, text, before, node, more: &[] }
    };
    let (idle, open, done) = ((IDLE, false, 0), (OPEN, false, 0), (DONE, false, 4));
    let (busy, inside) = ((BUSY, false, 0), (BUSY, true, 0));
    let one_call = "fun f() = 1  fun main() = f()";
    let begun = [idle, busy, busy, done];
    let in_main = [idle, idle, idle, busy, busy, done];
    let branches = [open, inside, done, done, inside, done, busy, done];
    vec![
        case("an argument waits for the call that it is for", TWICE, &[open, inside, busy, done], (1, 2), 3),
        case("a call waits for itself", TWICE, &begun, (1, 3), 3),
        case("what is inside is no call", TWICE, &begun, (1, 4), 3),
        case("the only call there is waits", one_call, &[idle, busy], (1, 2), 2),
        case("a call off the list waits beside listed ones", HELD, &in_main, (2, 5), 5),
        case("another call off the list has a tag", AROUND, &[idle, open, inside, busy, done], (2, 3), 4).more(&[3]),
        case("a call out of reach waits for main's", SPARE, &[open, busy, done, busy, inside, done], (1, 5), 2),
        case("a body waits for a definiens", AFTER, &[open, inside, inside, done, busy, done], (1, 3), 5),
        case("one branch waits for the other", BRANCHES, &branches, (1, 5), 7),
    ]
}
