//! The random designs that are timed, and the start of one as all three have it.

use compare_circuit::lent::Lent;
use design::circuit;
use design::generator::{accepted_of, accepted_spare_of};
use design::list::tags_of;
use design::random::Random;
use design::reading::read;
use design::states::arguments;
use design::width_kinds::is_narrow;
use design::Tree;

/// Nodes of the tables that the check and the list are timed on.
pub const TABLE_SIZES: [usize; 4] = [64, 128, 256, 512];
const TABLES: usize = 24;

/// Nodes of the designs that the run, one step and one start are timed on.
pub const JOB_SIZES: [usize; 3] = [16, 128, 512];
const JOBS: usize = 12;

pub fn tables(size: usize) -> Vec<Vec<u8>> {
    made(size, accepted_of)
}

/// Tables that all have functions out of main's reach, about a third of them.
pub fn spare_tables(size: usize) -> Vec<Vec<u8>> {
    made(size, accepted_spare_of)
}

fn made(size: usize, make: impl Fn(&mut Random, usize) -> Vec<u8>) -> Vec<Vec<u8>> {
    let mut random = Random::new(size as u64);
    let tables: Vec<Vec<u8>> = (0..TABLES).map(|_| make(&mut random, size)).collect();
    let has_widths = |table: &&Vec<u8>| is_narrow(&Tree::read(table).expect("an accepted table"));
    mostly_narrow(tables.iter().filter(has_widths).count(), TABLES);
    tables
}

/// Widths are timed too: most designs have a function that is narrow.
fn mostly_narrow(narrow: usize, all: usize) {
    assert!(2 * narrow > all, "{narrow} of {all} designs have a narrow function");
}

/// Jobs, each made of a table of this size and arguments for main with which it goes on for longer than these steps.
pub fn jobs<Job>(size: usize, steps: u32, job: impl Fn(Vec<u8>, Vec<u32>) -> Job) -> Vec<Job> {
    let mut random = Random::new(size as u64);
    let (mut jobs, mut narrow) = (Vec::new(), 0);
    while jobs.len() < JOBS {
        let table = accepted_of(&mut random, size);
        let tree = Tree::read(&table).expect("an accepted table");
        let arguments = arguments(&mut random, &tree);
        if read(&tree, &arguments, steps.into()).is_none() {
            narrow += usize::from(is_narrow(&tree));
            jobs.push(job(table, arguments));
        }
    }
    mostly_narrow(narrow, JOBS);
    jobs
}

/// A start with the arbiter list as tags.
pub struct Begun {
    pub tags: Vec<u8>,
    pub own: circuit::State,
    pub proved: Lent,
    pub fast: fast::State,
}

impl Begun {
    /// All three start, and alike.
    pub fn new(table: &[u8], arguments: &[u32]) -> Begun {
        let tags = tags_of(table).expect("an accepted table");
        let (mut own, mut proved, mut fast) = (circuit::State::zero(), Lent::zero(), fast::State::zero());
        circuit::start(table, &tags, arguments, &mut own).expect("a start");
        assert_eq!(compare_circuit::start(table, &tags, arguments, &mut proved), Ok(Ok(())));
        assert_eq!(fast::start(table, &tags, arguments, &mut fast), 0);
        assert_eq!(proved.same_as(&own), Ok(()));
        Begun { tags, own, proved, fast }
    }
}
