//! How tags that are in order stand to the arbiter list, so that tests can count how often each kind occurs.

use crate::list::{arbiter_list, list_over_all, records, tagged, Calls};
use crate::reach::reached;
use crate::states::every_call;
use crate::table::Node;
use crate::tree::Tree;

/// Tags that hold the list.
pub const HELD: [&str; 7] = [
    "nothing is listed or tagged",
    "nothing is listed, something is tagged",
    "just the list is tagged",
    "the list and some more is tagged",
    "the list is tagged, and so is every other call",
    "the list is tagged, and so is a call out of reach",
    "no tag at a call that all bodies would list",
];

/// Tags that don't. "It" is the lowest listed call without a tag.
pub const MISSED: [&str; 13] = [
    "one of several listed calls has no tag",
    "several listed calls have no tag, another has one",
    "no listed call has a tag",
    "a listed call before it has a tag",
    "a record before its own has no tag either",
    "a call that isn't listed has a tag",
    "it is above node 8",
    "it is above node 64",
    "it is above node 256",
    "it is in main",
    "it is in a body that was called",
    "it is the only call of its function",
    "all bodies would list a call before it that has no tag",
];

/// The kinds of these tags, which are in order.
pub fn tag_kinds(tree: &Tree, tags: &[u8]) -> Vec<&'static str> {
    let (list, tagged) = (arbiter_list(tree), tagged(tree, tags));
    let untagged = &list - &tagged;
    match untagged.first() {
        None => held(tree, &list, &tagged),
        Some(lowest) => missed(tree, &list, &tagged, &untagged, *lowest),
    }
}

fn held(tree: &Tree, list: &Calls, tagged: &Calls) -> Vec<&'static str> {
    let mut found = Vec::new();
    let mut note = |kind, there: bool| found.extend(there.then_some(kind));
    let (reached, every) = (reached(tree), every_call(tree));
    let is_spare = |call: &Node| !reached.contains(&tree.owner(*call));
    note("nothing is listed or tagged", tagged.is_empty());
    note("nothing is listed, something is tagged", list.is_empty() && !tagged.is_empty());
    let is_some = !list.is_empty();
    note("just the list is tagged", is_some && tagged == list);
    note("the list and some more is tagged", is_some && tagged != list && *tagged != every);
    note("the list is tagged, and so is every other call", is_some && tagged != list && *tagged == every);
    note("the list is tagged, and so is a call out of reach", is_some && tagged.iter().any(is_spare));
    note("no tag at a call that all bodies would list", !list_over_all(tree).is_subset(tagged));
    found
}

fn missed(tree: &Tree, list: &Calls, tagged: &Calls, untagged: &Calls, lowest: Node) -> Vec<&'static str> {
    let mut found = Vec::new();
    let mut note = |kind, there: bool| found.extend(there.then_some(kind));
    let all = untagged == list;
    note("one of several listed calls has no tag", untagged.len() == 1 && !all);
    note("several listed calls have no tag, another has one", untagged.len() > 1 && !all);
    note("no listed call has a tag", all);
    note("a listed call before it has a tag", list.first() != Some(&lowest));
    let first_record = records(tree).into_iter().find(|record| untagged.contains(&record.node));
    note("a record before its own has no tag either", first_record.is_some_and(|record| record.node != lowest));
    note("a call that isn't listed has a tag", !tagged.is_subset(list));
    note("it is above node 8", lowest > Node(8));
    note("it is above node 64", lowest > Node(64));
    note("it is above node 256", lowest > Node(256));
    let in_main = tree.owner(lowest) == tree.main();
    note("it is in main", in_main);
    note("it is in a body that was called", !in_main);
    let others = |call: &Node| *call != lowest && tree.other_callee(*call) == tree.other_callee(lowest);
    note("it is the only call of its function", !every_call(tree).iter().any(others));
    let over_all = &list_over_all(tree) - tagged;
    note("all bodies would list a call before it that has no tag", over_all.first() != Some(&lowest));
    found
}
