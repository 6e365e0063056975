//! The run on a budget, per step, always at the first possible node. Table and tags are checked once in each run, which
//! many steps outweigh.

use std::hint::black_box;

use crate::designs::{jobs, Begun, JOB_SIZES};
use crate::measure::{medians, Section};
use crate::ratios::Ratios;
use compare_circuit::lent::Lent;
use compare_circuit::traces::traced;
use design::asm::assemble;
use design::circuit::{run_traced, Ending};
use design::crowds::{callers, chain, CROWD};
use design::reading::read;
use design::{Node, Tree};

/// Steps of each run of a random design; the others come to their end.
const BUDGET: u32 = 20_000;

/// Rounds of the loops around many calls, so that they take about as many steps.
const ROUNDS: u32 = 20;

/// Steps that the reference, which is slow, takes too before anything is timed.
const CHECKED: u32 = 1_000;

/// Time a step against the plain fast baseline's, and at the largest size against that at the smallest.
const BOUND: f64 = 1.5;
const GROWTH_BOUND: f64 = 1.5;

/// Time a step where very many calls are under way, against the median row.
const CROWD_BOUND: f64 = 2.0;

const MULT: &str = "fun mult(x, y, acc) =
  if or(equal(x, 0), equal(y, 0))
  then acc
  else mult(double(x), halve(y), if lowbit(y) then add(acc, x) else acc)";

/// The bound speaks of the plain baseline; the one with sets as long as a design needs is shown beside it.
const COLUMNS: [(&str, usize); 8] = [
    ("proved steps/s", 0),
    ("fast steps/s", 0),
    ("sized steps/s", 0),
    ("proved ns a step", 2),
    ("fast ns a step", 2),
    ("sized ns a step", 2),
    ("ratio", 2),
    ("ratio to sized", 2),
];

pub fn section(ratios: &mut Ratios) {
    let section = Section::new("run on a budget, medians over all runs", "nodes", &COLUMNS);
    // They go on for longer than the budget, so that all runs have as many steps.
    let by_size = JOB_SIZES.map(|size| jobs(size, BUDGET, |table, arguments| Job::new(table, &arguments, BUDGET)));
    let mut rows = Vec::new();
    for (size, jobs) in JOB_SIZES.iter().zip(&by_size) {
        rows.push(row(&section, &size.to_string(), jobs));
        ratios.add(&format!("run, a step at {size} nodes"), rows[rows.len() - 1].ratio, BOUND);
    }
    let mult = to_the_end(assemble(MULT).expect("a text in order"), &[u32::MAX, u32::MAX, 0]);
    rows.push(row(&section, &format!("mult, {} steps", mult.steps), &[mult]));
    ratios.add("run, a step of mult", rows[rows.len() - 1].ratio, BOUND);
    let crowds = [
        // All of them calls of one function, which wait for each other.
        (format!("{CROWD} callers"), to_the_end(callers(), &[ROUNDS])),
        // One in another, each with an argument that isn't done until the one before it left.
        (format!("chain of {CROWD}"), to_the_end(chain(), &[ROUNDS, 7])),
    ];
    let crowds = crowds.map(|(label, job)| (row(&section, &label, &[job]), label));
    rows.extend(crowds.iter().map(|(row, _)| *row));
    let median = median(&rows);
    println!("median row of the proved code: {median:.2} ns a step");
    for (row, label) in &crowds {
        ratios.add(&format!("run, a step, {label}"), row.ratio, BOUND);
        ratios.add(&format!("proved, {label} over median row"), row.proved / median, CROWD_BOUND);
    }
    let [small, .., large] = &by_size;
    let growth = growth(small, large);
    let [small, .., large] = JOB_SIZES;
    let label = format!("proved, a step at {large} over {small} nodes");
    println!("{label}: {growth:.2}");
    ratios.add(&label, growth, GROWTH_BOUND);
}

/// A start, as all have it, and the steps that a run takes from it.
struct Job {
    table: Vec<u8>,
    tags: Vec<u8>,
    proved: Lent,
    fast: fast::State,
    budget: u32,
    steps: u32,
}

impl Job {
    /// The first steps of all four are at the same nodes and come out alike, and so does the whole run of the three
    /// that are timed.
    fn new(table: Vec<u8>, arguments: &[u32], budget: u32) -> Job {
        let Begun { tags, mut own, proved, fast } = Begun::new(&table, arguments);
        let few = budget.min(CHECKED);
        let trace = run_traced(&table, &tags, &mut own, few).expect("a run");
        let mut checked = proved.clone();
        assert_eq!(traced(&table, &tags, &mut checked, few), Ok(Ok(trace.clone())));
        assert_eq!(checked.same_as(&own), Ok(()));
        let (mut whole, mut nodes) = (fast.clone(), Vec::new());
        let told = fast::run_watched(&table, &tags, &mut whole, budget, |node| nodes.push(Node(node)));
        let (mut sized, mut sized_nodes) = (fast.clone(), Vec::new());
        let sized_told =
            fast::run_sized_watched(&table, &tags, &mut sized, budget, |node| sized_nodes.push(Node(node)));
        assert_eq!(sized_told, told);
        assert!(sized_nodes == nodes && sized == whole);
        let (steps, ending) = told.expect("a run");
        assert_eq!(nodes[..trace.0.len()], trace.0);
        let ending = match ending {
            fast::Ending::Answered(value) => Ending::Answered(value),
            fast::Ending::AtRest => Ending::AtRest,
            fast::Ending::Spent => Ending::Spent,
        };
        let mut lent = proved.clone();
        assert_eq!(driven(&table, &tags, &mut lent, budget), (steps, ending));
        assert_eq!(fast_state(&lent), whole);
        Job { table, tags, proved, fast, budget, steps }
    }
}

/// Steps that the proved code takes, and how they end.
fn driven(table: &[u8], tags: &[u8], state: &mut Lent, budget: u32) -> (u32, Ending) {
    let mut count = 0;
    let told = compare_circuit::drive(table, tags, state, budget, &mut count);
    (count, told.expect("an answer").expect("a run"))
}

fn fast_state(lent: &Lent) -> fast::State {
    let state = lent.state().expect("flags");
    fast::State {
        status: state.nodes.map(|node| node.status),
        second: state.nodes.map(|node| node.second),
        value: state.nodes.map(|node| node.value),
        registers: state.functions.map(|function| function.registers),
        occupant: state.functions.map(|function| function.occupant.0),
    }
}

/// A run to the answer, in as many steps as the reading counts.
fn to_the_end(table: Vec<u8>, arguments: &[u32]) -> Job {
    let job = Job::new(table, arguments, u32::MAX);
    let tree = Tree::read(&job.table).expect("an accepted table");
    let reading = read(&tree, arguments, u32::MAX.into()).expect("it ends");
    assert_eq!(u64::from(job.steps), reading.count);
    job
}

fn run_proved(job: &Job) {
    let (mut state, mut count) = (job.proved.clone(), 0);
    let told = compare_circuit::drive(black_box(&job.table), &job.tags, &mut state, job.budget, &mut count);
    assert!(told.is_ok());
    black_box(count);
    black_box(state);
}

fn run_fast(job: &Job) {
    let mut state = job.fast.clone();
    let told = fast::run(black_box(&job.table), &job.tags, &mut state, job.budget);
    assert!(told.is_ok());
    black_box(state);
}

fn run_sized(job: &Job) {
    let mut state = job.fast.clone();
    let told = fast::run_sized(black_box(&job.table), &job.tags, &mut state, job.budget);
    assert!(told.is_ok());
    black_box(state);
}

/// The proved code's nanoseconds a step, and the ratio to the plain fast baseline's.
#[derive(Clone, Copy)]
struct Row {
    proved: f64,
    ratio: f64,
}

/// Prints a row, whose jobs have as many steps each.
fn row(section: &Section, label: &str, jobs: &[Job]) -> Row {
    let times = medians(jobs, 0, [&run_proved, &run_fast, &run_sized]);
    let nanos = times.nanos.map(|nanos| nanos / f64::from(jobs[0].steps));
    section.row(label, &[&nanos.map(|nanos| 1e9 / nanos), &nanos, &times.ratios[..]].concat());
    Row { proved: nanos[0], ratio: times.ratios[0] }
}

/// The median of the times a step; of two in the middle the lower.
fn median(rows: &[Row]) -> f64 {
    let mut times: Vec<f64> = rows.iter().map(|row| row.proved).collect();
    times.sort_by(f64::total_cmp);
    times[(times.len() - 1) / 2]
}

/// The proved code's time a step on large designs over that on small ones, timed in turns: both take as many steps.
fn growth(small: &[Job], large: &[Job]) -> f64 {
    let pairs: Vec<(&Job, &Job)> = small.iter().zip(large).collect();
    let on_small = |pair: &(&Job, &Job)| run_proved(pair.0);
    let on_large = |pair: &(&Job, &Job)| run_proved(pair.1);
    medians(&pairs, 0, [&on_large, &on_small]).ratios[0]
}

#[test]
fn the_lower_of_two_rows_in_the_middle() {
    let rows = |times: &[f64]| times.iter().map(|proved| Row { proved: *proved, ratio: 1.0 }).collect::<Vec<Row>>();
    assert_eq!(median(&rows(&[9.0, 1.0, 4.0, 7.0])), 4.0);
    assert_eq!(median(&rows(&[9.0, 1.0, 4.0, 7.0, 5.0])), 5.0);
}
