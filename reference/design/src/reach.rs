//! Which functions main reaches by calls. Nobody builds the others, so they add nothing to the arbiter list.

use std::collections::BTreeSet;

use crate::table::Function;
use crate::tree::Tree;

pub type Functions = BTreeSet<Function>;

/// Main is reached, and so is what a reached body calls. A self call leads nowhere new and doesn't count.
pub fn reached(tree: &Tree) -> Functions {
    let mut found = Functions::from([tree.main()]);
    loop {
        let bodies = found.iter().flat_map(|function| tree.nodes_of(*function));
        let called: Functions = bodies.filter_map(|node| tree.other_callee(*node)).collect();
        if called.is_subset(&found) {
            return found;
        }
        found.extend(called);
    }
}
