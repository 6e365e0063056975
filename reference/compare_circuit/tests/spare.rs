//! Bodies that main doesn't reach may carry tags without harm: with them and without, starts, steps and runs are the
//! same, and no node out of reach ever has a step.

use compare::list_check_tags;
use compare_circuit::rounds::{tree_of, Round, EMPTY_LIST, LIST_HELD};
use compare_circuit::seen::Seen;
use design::circuit::{Answer, FunctionState, NodeState, State};
use design::difference::{ensure, shown, Outcome};
use design::generator::{accepted_spare, accepted_spare_of};
use design::list::{arbiter_list, check_tags, tag_bytes, Calls};
use design::random::Random;
use design::reach::reached;
use design::states::arguments;
use design::{Function, Node, Tree};

/// Designs with a call out of reach that can be tagged. Those with none are passed over.
const DESIGNS: usize = 2_500;

/// Steps that are asked for in each.
const ASKS: usize = 120;

/// A design with the bodies that main doesn't reach.
struct Design {
    bytes: Vec<u8>,
    tree: Tree,
    functions: Vec<Function>,
    nodes: Vec<Node>,
}

impl Design {
    fn some(random: &mut Random) -> Result<Design, String> {
        let nodes = random.within(6, 80);
        let bytes = if random.once_in(20) { accepted_spare(random) } else { accepted_spare_of(random, nodes) };
        let tree = tree_of(&bytes)?;
        let reached = reached(&tree);
        let functions: Vec<Function> = tree.functions().filter(|function| !reached.contains(function)).collect();
        let nodes = tree.nodes().filter(|node| functions.contains(&tree.owner(*node))).collect();
        Ok(Design { bytes, tree, functions, nodes })
    }

    fn spare_calls(&self) -> Calls {
        self.nodes.iter().copied().filter(|node| self.tree.other_callee(*node).is_some()).collect()
    }

    /// Whether a call out of reach is one of a function that main reaches: in the circuit they would share it.
    fn calls_into_reach(&self) -> bool {
        self.spare_calls()
            .iter()
            .any(|call| self.tree.other_callee(*call).is_some_and(|callee| !self.functions.contains(&callee)))
    }

    /// The list; the same and all calls out of reach; the same and some of them. All are in order.
    fn tags(&self, random: &mut Random) -> Result<[Vec<u8>; 3], String> {
        let (list, calls) = (arbiter_list(&self.tree), self.spare_calls());
        let some: Calls = calls.iter().copied().filter(|_| random.once_in(2)).collect();
        let tags = [Calls::new(), calls, some].map(|more| tag_bytes(&self.tree, &(&list | &more)));
        for tags in &tags {
            let (found, wanted) = (list_check_tags(&self.bytes, tags), check_tags(&self.tree, tags));
            ensure(found == 0 && wanted.is_ok(), || {
                format!("{found}, {wanted:?}: table {}, tags {}", shown(&self.bytes), shown(tags))
            })?;
        }
        Ok(tags)
    }

    /// Nothing is under way out of reach, and nothing has been.
    fn is_at_rest(&self, state: &State) -> bool {
        self.nodes.iter().all(|node| *state.node(*node) == NodeState::default())
            && self.functions.iter().all(|function| *state.function(*function) == FunctionState::default())
    }
}

/// One design started with each of the tag lists.
struct Three {
    design: Design,
    rounds: [Round; 3],
}

impl Three {
    fn started(random: &mut Random, design: Design) -> Result<Three, String> {
        let arguments = arguments(random, &design.tree);
        let [one, two, three] = design.tags(random)?.map(|tags| Round::started(design.bytes.clone(), tags, &arguments));
        let three = Three { design, rounds: [one?, two?, three?] };
        three.are_same("start")?;
        Ok(three)
    }

    fn expect(&self, holds: bool, otherwise: impl FnOnce() -> String) -> Outcome {
        ensure(holds, || self.rounds[1].told(otherwise()))
    }

    /// All three stand alike, and have never been out of reach.
    fn are_same(&self, what: &str) -> Outcome {
        let [list, others @ ..] = &self.rounds;
        let same = others.iter().all(|other| other.lent == list.lent && other.own == list.own);
        self.expect(same, || format!("after {what} the states differ"))?;
        let fine = list.lent.same_as(&list.own).is_ok() && self.design.is_at_rest(&list.own);
        self.expect(fine, || format!("after {what} something out of reach is under way"))
    }

    /// What all three say to the same question, and then they stand alike.
    fn ask<T: PartialEq + std::fmt::Debug>(
        &mut self,
        what: &str,
        mut ask: impl FnMut(&mut Round) -> Result<T, String>,
    ) -> Result<T, String> {
        let [list, all, some] = &mut self.rounds;
        let (told, others) = (ask(list)?, [ask(all)?, ask(some)?]);
        self.expect(others.iter().all(|other| *other == told), || format!("{what}: {told:?}, with tags {others:?}"))?;
        self.are_same(what)?;
        Ok(told)
    }
}

/// Steps in any order, at nodes out of reach too.
fn steps(random: &mut Random, seen: &mut Seen, three: &mut Three) -> Outcome {
    let mut asks = random.within(10, ASKS);
    while asks > 0 {
        asks -= 1;
        let node = match random.once_in(6) {
            true => random.pick(&three.design.nodes).0,
            false => three.rounds[0].some_node(random),
        };
        let answer = three.ask(&format!("a step at {node}"), |round| round.step(node))?;
        seen.answer(answer);
        if three.design.nodes.contains(&Node(node)) {
            seen.note("asked out of reach");
            let is_refused = matches!(answer, Answer::Refused(refusal) if [20, 21].contains(&refusal.number));
            three.expect(is_refused, || format!("{answer:?} at {node}, which is out of reach"))?;
        }
        // The list is enough, so no call without a tag has to wait.
        let waits = matches!(answer, Answer::Refused(refusal) if refusal.number == 23);
        three.expect(!waits, || format!("{answer:?} with the list as tags"))?;
        if matches!(answer, Answer::Answered(_)) {
            asks = asks.min(3);
        }
    }
    Ok(())
}

/// The query, a run over a list of nodes and a run on a budget; all three make the same random choices.
fn runs(random: &mut Random, seen: &mut Seen, three: &mut Three) -> Outcome {
    let count = three.design.tree.node_count();
    for _ in 0..3 {
        let named = three.ask("a query", |round| round.query())?;
        seen.note_if("named by the query", matches!(named, Ok(Some(_))));
        let mut nodes: Vec<u16> = named.ok().flatten().map(|node| node.0).into_iter().collect();
        nodes.extend((0..random.below(4)).map(|_| random.below(count + 2) as u16));
        let noise = random.number();
        let told = three.ask("a run", |round| round.run(&mut Random::new(noise), &nodes))?;
        seen.note_if("a run stopped by a refusal", matches!(told, Ok((_, Some(_)))));
        let budget = random.below(80) as u32;
        let told = three.ask("a drive", |round| round.drive(&mut Random::new(noise), budget))?;
        seen.note_if("a drive of more than 10 steps", told.is_ok_and(|(taken, _)| taken > 10));
    }
    Ok(())
}

#[test]
fn tags_out_of_reach_do_no_harm() -> Outcome {
    let (mut random, mut seen) = (Random::new(451), Seen::default());
    let mut designs = 0;
    while designs < DESIGNS {
        let design = Design::some(&mut random)?;
        if design.spare_calls().is_empty() {
            continue;
        }
        designs += 1;
        let mut three = Three::started(&mut random, design)?;
        seen.note(three.rounds[0].tagging()?);
        seen.note_if("some calls out of reach tagged", three.rounds[2].tags != three.rounds[0].tags);
        seen.note_if("a tag at a call of a reached function", three.design.calls_into_reach());
        steps(&mut random, &mut seen, &mut three)?;
        runs(&mut random, &mut seen, &mut three)?;
        // Runs right from a start, too.
        let mut three = Three::started(&mut random, three.design)?;
        runs(&mut random, &mut seen, &mut three)?;
    }
    let wanted = [
        ("taken", 50_000),
        ("answered", 600),
        ("asked out of reach", 20_000),
        (EMPTY_LIST, DESIGNS / 3),
        (LIST_HELD, DESIGNS / 6),
        ("some calls out of reach tagged", DESIGNS / 2),
        ("a tag at a call of a reached function", DESIGNS / 4),
        ("named by the query", 5_000),
        ("a run stopped by a refusal", 5_000),
        ("a drive of more than 10 steps", 3_000),
    ];
    seen.often("tags out of reach", &wanted)?;
    seen.refused_often("tags out of reach", [12, 20, 21, 22], 500)
}
