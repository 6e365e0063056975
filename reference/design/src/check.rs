//! The table check: refusals 1 to 9 by rising number and then 25, each over the whole table.

use std::collections::{BTreeMap, BTreeSet};

use numbers::{BOUND, CALL, CONSTANT, IF, LET, PARAMETER, PRIMITIVE};
use numbers::{MOST_FUNCTIONS, MOST_NODES, MOST_PARAMETERS, MOST_WIDTH};

use crate::table::{narrow, operation_counts, Function, Node, Refusal, Table};

/// Accepts a table or tells the first refusal that applies.
pub fn check(bytes: &[u8]) -> Result<(), Refusal> {
    let table = Table::new(bytes);
    if bytes.len() < 4 {
        return Err(Refusal { number: 1, place: Node(0) });
    }
    let functions_fit = (1..=MOST_FUNCTIONS).contains(&usize::from(table.function_count()));
    let nodes_fit = (1..=MOST_NODES).contains(&usize::from(table.node_count()));
    if !functions_fit || !nodes_fit {
        return Err(Refusal { number: 2, place: Node(0) });
    }
    if bytes.len() != table.wanted_length() {
        return Err(Refusal { number: 3, place: Node(0) });
    }
    refuse(4, links(&table))?;
    refuse(5, fields(&table))?;
    // From here on each node has one function and its chains end.
    let owners = owners(&table);
    refuse(6, lowest(&table, |node| callee_out_of_range(&table, &owners, node)))?;
    refuse(7, lowest(&table, |node| !right_child_count(&table, node)))?;
    let definientia = definientia(&table);
    refuse(8, lowest(&table, |node| out_of_scope(&table, &owners, &definientia, node)))?;
    let tails = tail_positions(&table);
    refuse(9, lowest(&table, |node| is_self_call(&table, &owners, node) && !tails.contains(&node)))?;
    refuse(25, wide_constant(&table))
}

fn refuse(number: u16, place: Option<Node>) -> Result<(), Refusal> {
    match place {
        Some(place) => Err(Refusal { number, place }),
        None => Ok(()),
    }
}

fn lowest(table: &Table, fault: impl Fn(Node) -> bool) -> Option<Node> {
    table.nodes().find(|node| fault(*node))
}

/// Refusal 4: roots, firsts and nexts.
fn links(table: &Table) -> Option<Node> {
    if table.functions().any(|function| !table.has_node(table.root(function).0)) {
        return Some(Node(0));
    }
    let roots: BTreeSet<Node> = table.functions().map(|function| table.root(function)).collect();
    // Every mention counts, also one that is itself a fault.
    let mut mentions: BTreeMap<Node, usize> = BTreeMap::new();
    let all_roots = table.functions().map(|function| table.root(function));
    let all_firsts = table.nodes().map(|node| table.first(node));
    let all_nexts = table.nodes().map(|node| table.next(node));
    for named in all_roots.chain(all_firsts).chain(all_nexts) {
        *mentions.entry(named).or_insert(0) += 1;
    }
    let leads_up = |from: Node, to: Node| to.0 == 0 || (to > from && table.has_node(to.0));
    lowest(table, |node| {
        !leads_up(node, table.first(node))
            || !leads_up(node, table.next(node))
            || mentions.get(&node) != Some(&1)
            || (roots.contains(&node) && table.next(node).0 != 0)
    })
}

/// Refusal 5: counts, widths, kinds, operations and fields that have to be zero.
fn fields(table: &Table) -> Option<Node> {
    let bad_record = |function| {
        usize::from(table.parameter_count(function)) > MOST_PARAMETERS || table.width_byte(function) > MOST_WIDTH
    };
    if table.functions().any(bad_record) {
        return Some(Node(0));
    }
    lowest(table, |node| {
        let no_extra = table.extra(node) == 0;
        let no_word = table.word(node) == 0;
        let no_first = table.first(node).0 == 0;
        let fine = match table.kind(node) {
            CONSTANT => no_extra && no_first,
            PARAMETER => no_word && no_first,
            // Every operation there is has a child, so none has both counts 0.
            PRIMITIVE => operation_counts(table.extra(node)) != (0, 0) && no_word,
            CALL => no_extra,
            IF | LET => no_extra && no_word,
            BOUND => no_extra && no_first,
            _ => false,
        };
        !fine
    })
}

/// A node's function is the one whose root reaches it.
pub fn owners(table: &Table) -> BTreeMap<Node, Function> {
    let mut found = BTreeMap::new();
    for function in table.functions() {
        for node in table.at_or_below(table.root(function)) {
            found.insert(node, function);
        }
    }
    found
}

/// Refusal 6 looks at the whole word.
fn callee_out_of_range(table: &Table, owners: &BTreeMap<Node, Function>, node: Node) -> bool {
    table.kind(node) == CALL && !(1..=u32::from(owners[&node].0)).contains(&table.word(node))
}

/// Refusal 7; callees are known to exist.
fn right_child_count(table: &Table, node: Node) -> bool {
    let count = table.children(node).len();
    match table.kind(node) {
        PRIMITIVE => {
            let (fewest, most) = operation_counts(table.extra(node));
            (fewest.into()..=most.into()).contains(&count)
        }
        CALL => count == usize::from(table.parameter_count(Function(table.word(node) as u16))),
        IF => count == 3,
        LET => (2..=9).contains(&count),
        _ => count == 0,
    }
}

/// Each definiens with the body in which it can be seen.
fn definientia(table: &Table) -> BTreeMap<Node, Node> {
    let mut bodies = BTreeMap::new();
    for holder in table.nodes().filter(|node| table.kind(*node) == LET) {
        let children = table.children(holder);
        if let Some((body, definientia)) = children.split_last() {
            bodies.extend(definientia.iter().map(|definiens| (*definiens, *body)));
        }
    }
    bodies
}

/// Refusal 8; a bound's word is taken whole.
fn out_of_scope(table: &Table, owners: &BTreeMap<Node, Function>, bodies: &BTreeMap<Node, Node>, node: Node) -> bool {
    match table.kind(node) {
        PARAMETER => table.extra(node) >= table.parameter_count(owners[&node]),
        BOUND => {
            let definiens = u16::try_from(table.word(node)).ok().map(Node);
            let body = definiens.and_then(|definiens| bodies.get(&definiens));
            !body.is_some_and(|body| table.at_or_below(*body).contains(&node))
        }
        _ => false,
    }
}

fn is_self_call(table: &Table, owners: &BTreeMap<Node, Function>, node: Node) -> bool {
    table.kind(node) == CALL && table.word(node) == u32::from(owners[&node].0)
}

/// Roots, branches of an if in tail position, the body of a let in tail position.
fn tail_positions(table: &Table) -> BTreeSet<Node> {
    let mut tails: BTreeSet<Node> = table.functions().map(|function| table.root(function)).collect();
    // Children have higher numbers than their holder, so one pass upwards finds all.
    for node in table.nodes() {
        if tails.contains(&node) {
            let children = table.children(node);
            match table.kind(node) {
                IF => tails.extend(children.iter().skip(1)),
                LET => tails.extend(children.last()),
                _ => {}
            }
        }
    }
    tails
}

/// Refusal 25 by itself: the lowest constant that its function is too narrow for. Links and fields are in order.
pub fn wide_constant(table: &Table) -> Option<Node> {
    let owners = owners(table);
    lowest(table, |node| {
        let word = table.word(node);
        table.kind(node) == CONSTANT && narrow(table.width(owners[&node]), word) != word
    })
}
