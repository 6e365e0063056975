//! One step and one start, each a call that is handed table, tags and state anew. The proved code is lent the state as
//! five arrays and changes them in place.

use std::hint::black_box;

use crate::designs::{jobs, Begun, JOB_SIZES};
use crate::measure::{medians, Section};
use crate::ratios::Ratios;
use compare_circuit::lent::Lent;
use design::circuit::{self, Answer};

/// Calls that are made one after the other, so that handing out a state for them hardly counts.
const STEPS: u32 = 64;
const STARTS: u32 = 16;

/// Against plain Rust that changes the state in place too; the way with copies is shown for what they cost.
const BOUND: f64 = 1.5;

const COLUMNS: [(&str, usize); 5] = [
    ("proved ns", 0),
    ("fast (in place) ns", 0),
    ("fast (copies) ns", 0),
    ("ratio to in place", 2),
    ("ratio to copies", 2),
];

pub fn section(ratios: &mut Ratios) {
    let by_size = JOB_SIZES.map(|size| (size, jobs(size, STEPS, Job::new)));
    let title = "one step, medians over steps from a start; table, tags and state are checked in each";
    let section = Section::new(title, "nodes", &COLUMNS);
    for (size, jobs) in &by_size {
        let times = medians(jobs, 0, [&steps_proved, &steps_in_place, &steps_copied]);
        let nanos = times.nanos.map(|nanos| nanos / f64::from(STEPS));
        section.row(&size.to_string(), &[&nanos[..], &times.ratios[..]].concat());
        ratios.add(&format!("one step, {size} nodes"), times.ratios[0], BOUND);
    }
    println!();
    let title = "one start, medians; table, tags and that they hold the list are checked in each";
    let section = Section::new(title, "nodes", &COLUMNS);
    for (size, jobs) in &by_size {
        let times = medians(jobs, 0, [&starts_proved, &starts_in_place, &starts_copied]);
        let nanos = times.nanos.map(|nanos| nanos / f64::from(STARTS));
        section.row(&size.to_string(), &[&nanos[..], &times.ratios[..]].concat());
        ratios.add(&format!("one start, {size} nodes"), times.ratios[0], BOUND);
    }
}

/// A design, its start as both have it, and steps that are taken from it.
struct Job {
    table: Vec<u8>,
    tags: Vec<u8>,
    arguments: Vec<u32>,
    proved: Lent,
    fast: fast::State,
    nodes: Vec<u16>,
}

impl Job {
    /// The start on lent arrays is like the others', and each step has the same answer and leads to the same state.
    fn new(table: Vec<u8>, arguments: Vec<u32>) -> Job {
        let Begun { tags, mut own, proved, fast } = Begun::new(&table, &arguments);
        let mut lent = fast::State::zero();
        assert_eq!(fast::start_lent(&table, &tags, &arguments, &mut lent.lend()), 0);
        assert_eq!(lent, fast);
        let mut nodes = Vec::new();
        let run = fast::run_watched(&table, &tags, &mut fast.clone(), STEPS, |node| nodes.push(node));
        assert_eq!(run, Ok((STEPS, fast::Ending::Spent)));
        let (mut by_proved, mut in_place) = (proved.clone(), fast.clone());
        for node in &nodes {
            assert_eq!(circuit::step(&table, &tags, &mut own, *node), Answer::Taken);
            assert_eq!(compare_circuit::step(&table, &tags, &mut by_proved, *node), Ok(Answer::Taken));
            assert_eq!(fast::step(&table, &tags, &mut in_place, *node), 0);
            assert_eq!(fast::step_lent(&table, &tags, &mut lent.lend(), *node), 0);
            assert_eq!((by_proved.same_as(&own), &lent), (Ok(()), &in_place));
        }
        Job { table, tags, arguments, proved, fast, nodes }
    }
}

fn steps_proved(job: &Job) {
    let mut state = job.proved.clone();
    for node in &job.nodes {
        let told = compare_circuit::step(black_box(&job.table), black_box(&job.tags), &mut state, *node);
        assert!(black_box(told).is_ok());
        black_box(&mut state);
    }
}

fn steps_in_place(job: &Job) {
    let mut state = job.fast.clone();
    for node in &job.nodes {
        black_box(fast::step(black_box(&job.table), black_box(&job.tags), &mut state, *node));
        black_box(&mut state);
    }
}

fn steps_copied(job: &Job) {
    let mut state = job.fast.clone();
    for node in &job.nodes {
        black_box(fast::step_lent(black_box(&job.table), black_box(&job.tags), &mut state.lend(), *node));
        black_box(&mut state);
    }
}

fn starts_proved(job: &Job) {
    let mut state = job.proved.clone();
    for _ in 0..STARTS {
        let told = compare_circuit::start(black_box(&job.table), black_box(&job.tags), &job.arguments, &mut state);
        assert!(black_box(told).is_ok());
        black_box(&mut state);
    }
}

fn starts_in_place(job: &Job) {
    let mut state = job.fast.clone();
    for _ in 0..STARTS {
        black_box(fast::start(black_box(&job.table), black_box(&job.tags), &job.arguments, &mut state));
        black_box(&mut state);
    }
}

fn starts_copied(job: &Job) {
    let mut state = job.fast.clone();
    for _ in 0..STARTS {
        black_box(fast::start_lent(black_box(&job.table), black_box(&job.tags), &job.arguments, &mut state.lend()));
        black_box(&mut state);
    }
}
