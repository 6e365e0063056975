//! The circuit: its state, its steps, the query and the two runs.

use numbers::{BUSY, DONE, MOST_FUNCTIONS, MOST_NODES, MOST_PARAMETERS, OPEN};

use crate::list::{check_tags, is_tagged, missing};
use crate::table::{compute, Function, Node, Refusal};
use crate::tree::{Kind, Tree};

#[derive(Clone, Copy, PartialEq, Eq, Hash, Debug, Default)]
pub struct NodeState {
    pub status: u8,
    pub second: bool,
    pub value: u32,
}

#[derive(Clone, Copy, PartialEq, Eq, Hash, Debug, Default)]
pub struct FunctionState {
    pub registers: [u32; MOST_PARAMETERS],
    pub occupant: Node,
}

/// Entries past F and N are there too; steps keep them.
#[derive(Clone, PartialEq, Eq, Debug)]
pub struct State {
    pub nodes: [NodeState; MOST_NODES],
    pub functions: [FunctionState; MOST_FUNCTIONS],
}

impl State {
    /// All zero.
    pub fn zero() -> State {
        State { nodes: [NodeState::default(); MOST_NODES], functions: [FunctionState::default(); MOST_FUNCTIONS] }
    }

    pub fn node(&self, node: Node) -> &NodeState {
        &self.nodes[usize::from(node.0) - 1]
    }

    pub fn node_mut(&mut self, node: Node) -> &mut NodeState {
        &mut self.nodes[usize::from(node.0) - 1]
    }

    pub fn function(&self, function: Function) -> &FunctionState {
        &self.functions[usize::from(function.0) - 1]
    }

    pub fn function_mut(&mut self, function: Function) -> &mut FunctionState {
        &mut self.functions[usize::from(function.0) - 1]
    }

    fn done(&self, node: Node) -> bool {
        self.node(node).status == DONE
    }

    fn all_done(&self, nodes: &[Node]) -> bool {
        nodes.iter().all(|node| self.done(*node))
    }

    fn values(&self, nodes: &[Node]) -> Vec<u32> {
        nodes.iter().map(|node| self.node(*node).value).collect()
    }
}

#[derive(Clone, Copy, PartialEq, Eq, Debug)]
pub enum Answer {
    Taken,
    Answered(u32),
    Refused(Refusal),
}

/// How a run on a budget ended.
#[derive(Clone, Copy, PartialEq, Eq, Debug)]
pub enum Ending {
    Answered(u32),
    AtRest,
    Spent,
}

/// Puts the state at its start, or leaves it as it is and tells why. The tags have to hold the arbiter list; nothing
/// that comes after a start looks at that again.
pub fn start(bytes: &[u8], tags: &[u8], arguments: &[u32], state: &mut State) -> Result<(), Refusal> {
    let tree = Tree::read(bytes)?;
    check_tags(&tree, tags)?;
    if arguments.len() != tree.parameters(tree.main()) {
        return Err(Refusal { number: 11, place: Node(0) });
    }
    if let Some(place) = missing(&tree, tags) {
        return Err(Refusal { number: 26, place });
    }
    *state = State::zero();
    let arguments = tree.keep_all(tree.main(), arguments);
    state.function_mut(tree.main()).registers[..arguments.len()].copy_from_slice(&arguments);
    state.node_mut(tree.root(tree.main())).status = OPEN;
    Ok(())
}

/// Asks for a step at a node, given by any number.
pub fn step(bytes: &[u8], tags: &[u8], state: &mut State, node: u16) -> Answer {
    let tree = match Tree::read(bytes) {
        Ok(tree) => tree,
        Err(refusal) => return Answer::Refused(refusal),
    };
    if let Err(refusal) = check_tags(&tree, tags) {
        return Answer::Refused(refusal);
    }
    step_with(&tree, tags, state, node)
}

/// The step of a table and tags that are known to be in order.
pub fn step_with(tree: &Tree, tags: &[u8], state: &mut State, node: u16) -> Answer {
    if node < 1 || usize::from(node) > tree.node_count() {
        return Answer::Refused(Refusal { number: 12, place: Node(0) });
    }
    if let Err(refusal) = check_state(tree, state) {
        return Answer::Refused(refusal);
    }
    let refused = |number| Answer::Refused(Refusal { number, place: Node(node) });
    let main_root = tree.root(tree.main());
    if state.done(main_root) {
        return refused(20);
    }
    match decide(tree, tags, state, Node(node)) {
        Err(number) => refused(number),
        Ok(change) => {
            apply(tree, state, Node(node), change);
            match state.done(main_root) {
                true => Answer::Answered(state.node(main_root).value),
                false => Answer::Taken,
            }
        }
    }
}

/// Refusal 24; it looks at nothing past F and N.
pub fn check_state(tree: &Tree, state: &State) -> Result<(), Refusal> {
    let bad_status = |node: Node| state.node(node).status > DONE;
    let bad_occupant = |function: Function| usize::from(state.function(function).occupant.0) > tree.node_count();
    if tree.nodes().any(bad_status) || tree.functions().any(bad_occupant) {
        return Err(Refusal { number: 24, place: Node(0) });
    }
    Ok(())
}

/// What a step at a node would change.
pub(crate) enum Change {
    Done(u32),
    Busy { opens: Vec<Node> },
    SecondPhase { opens: Node },
    Enter(Function),
    Leave(Function, u32),
    Again(Function),
}

/// The change a step would bring, or 21, 22 or 23.
pub(crate) fn decide(tree: &Tree, tags: &[u8], state: &State, node: Node) -> Result<Change, u16> {
    let (children, owner) = (tree.children(node), tree.owner(node));
    match (state.node(node).status, tree.kind(node)) {
        (OPEN, Kind::Constant(value)) => Ok(Change::Done(value)),
        (OPEN, Kind::Parameter(index)) => Ok(Change::Done(state.function(owner).registers[index])),
        (OPEN, Kind::Bound(definiens)) => Ok(Change::Done(state.node(definiens).value)),
        (OPEN, Kind::Primitive(_) | Kind::Call(_)) => Ok(Change::Busy { opens: children.to_vec() }),
        (OPEN, Kind::If) => Ok(Change::Busy { opens: vec![children[0]] }),
        (OPEN, Kind::Let) => Ok(Change::Busy { opens: tree.definientia(node).to_vec() }),
        (BUSY, Kind::Primitive(operation)) if state.all_done(children) => {
            Ok(Change::Done(tree.keep(owner, compute(operation, &state.values(children)))))
        }
        (BUSY, Kind::If) => {
            let branch = if state.node(children[0]).value != 0 { children[1] } else { children[2] };
            two_phases(state, node, &children[..1], branch)
        }
        (BUSY, Kind::Let) => two_phases(state, node, tree.definientia(node), tree.body(node)),
        (BUSY, Kind::Call(callee)) => decide_call(tree, tags, state, node, callee),
        _ => Err(21),
    }
}

/// A busy if or let: after the first children the last part, and then its value.
fn two_phases(state: &State, node: Node, first: &[Node], last: Node) -> Result<Change, u16> {
    match state.node(node).second {
        false if state.all_done(first) => Ok(Change::SecondPhase { opens: last }),
        true if state.done(last) => Ok(Change::Done(state.node(last).value)),
        _ => Err(21),
    }
}

fn decide_call(tree: &Tree, tags: &[u8], state: &State, node: Node, callee: Function) -> Result<Change, u16> {
    let arguments_done = state.all_done(tree.children(node));
    if callee == tree.owner(node) {
        // Neither the flag nor the occupant matters to a self call.
        return if arguments_done { Ok(Change::Again(callee)) } else { Err(21) };
    }
    if state.node(node).second {
        let root = tree.root(callee);
        // The caller keeps of an answer what it has room for.
        let answer = tree.keep(tree.owner(node), state.node(root).value);
        return if state.done(root) { Ok(Change::Leave(callee, answer)) } else { Err(21) };
    }
    if !arguments_done {
        return Err(21);
    }
    match (state.function(callee).occupant, is_tagged(tags, node)) {
        (Node(0), _) => Ok(Change::Enter(callee)),
        (_, true) => Err(22),
        (_, false) => Err(23),
    }
}

fn apply(tree: &Tree, state: &mut State, node: Node, change: Change) {
    match change {
        Change::Done(value) => finish(state, node, value),
        Change::Busy { opens } => {
            state.node_mut(node).status = BUSY;
            for child in opens {
                state.node_mut(child).status = OPEN;
            }
        }
        Change::SecondPhase { opens } => {
            state.node_mut(node).second = true;
            state.node_mut(opens).status = OPEN;
        }
        Change::Enter(callee) => {
            reset(tree, state, node, callee);
            state.function_mut(callee).occupant = node;
            state.node_mut(node).second = true;
        }
        Change::Leave(callee, value) => {
            finish(state, node, value);
            state.function_mut(callee).occupant = Node(0);
        }
        Change::Again(function) => reset(tree, state, node, function),
    }
}

fn finish(state: &mut State, node: Node, value: u32) {
    *state.node_mut(node) = NodeState { status: DONE, second: false, value };
}

/// Makes a function's body ready for the arguments of this call and opens its root.
fn reset(tree: &Tree, state: &mut State, call: Node, function: Function) {
    // Read before the reset, which takes the arguments of a self call with it.
    let arguments = tree.keep_all(function, &state.values(tree.children(call)));
    for node in tree.nodes_of(function) {
        *state.node_mut(*node) = NodeState::default();
    }
    let registers = &mut state.function_mut(function).registers;
    *registers = Default::default();
    registers[..arguments.len()].copy_from_slice(&arguments);
    state.node_mut(tree.root(function)).status = OPEN;
}

/// What query and runs check before anything else.
fn checked(bytes: &[u8], tags: &[u8], state: &State) -> Result<Tree, Refusal> {
    let tree = Tree::read(bytes)?;
    check_tags(&tree, tags)?;
    check_state(&tree, state)?;
    Ok(tree)
}

/// The nodes at which a step is possible by rising number, none once main has answered; the state is known to be in
/// order.
pub fn possible<'a>(tree: &'a Tree, tags: &'a [u8], state: &'a State) -> impl Iterator<Item = Node> + 'a {
    let answered = state.done(tree.root(tree.main()));
    tree.nodes().filter(move |node| !answered && decide(tree, tags, state, *node).is_ok())
}

/// The possible node with the lowest number.
pub fn first(tree: &Tree, tags: &[u8], state: &State) -> Option<Node> {
    possible(tree, tags, state).next()
}

/// Names the first possible node, or none exactly if there is none.
pub fn query(bytes: &[u8], tags: &[u8], state: &State) -> Result<Option<Node>, Refusal> {
    let tree = checked(bytes, tags, state)?;
    Ok(first(&tree, tags, state))
}

/// Steps that were taken, and the refusal that ended them.
pub type Steps = (usize, Option<Refusal>);

/// Asks for the listed steps up to the first refusal; tells the steps taken and that refusal, or why none was asked
/// for.
pub fn run_list(bytes: &[u8], tags: &[u8], state: &mut State, nodes: &[u16]) -> Result<Steps, Refusal> {
    let tree = checked(bytes, tags, state)?;
    for (taken, node) in nodes.iter().enumerate() {
        if let Answer::Refused(refusal) = step_with(&tree, tags, state, *node) {
            return Ok((taken, Some(refusal)));
        }
    }
    Ok((nodes.len(), None))
}

/// Takes the first possible step, then the first after it and so on, up to the budget; tells how many, and why it
/// ended.
pub fn run_budget(bytes: &[u8], tags: &[u8], state: &mut State, budget: u32) -> Result<(u32, Ending), Refusal> {
    let (nodes, ending) = run_traced(bytes, tags, state, budget)?;
    Ok((nodes.len() as u32, ending))
}

/// The same, telling the node of each step.
pub fn run_traced(bytes: &[u8], tags: &[u8], state: &mut State, budget: u32) -> Result<(Vec<Node>, Ending), Refusal> {
    let tree = checked(bytes, tags, state)?;
    let main_root = tree.root(tree.main());
    let mut nodes = Vec::new();
    loop {
        if state.done(main_root) {
            return Ok((nodes, Ending::Answered(state.node(main_root).value)));
        }
        let Some(node) = first(&tree, tags, state) else {
            return Ok((nodes, Ending::AtRest));
        };
        if nodes.len() == budget as usize {
            return Ok((nodes, Ending::Spent));
        }
        let answer = step_with(&tree, tags, state, node.0);
        debug_assert!(!matches!(answer, Answer::Refused(_)));
        nodes.push(node);
    }
}
