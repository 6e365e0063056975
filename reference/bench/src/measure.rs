//! Timing several ways of doing the same, and printing it.

use std::time::Instant;

/// Samples taken of each way on each input; a slow way has fewer.
const SAMPLES: usize = 61;
const FEWEST_SAMPLES: usize = 5;

/// A way has this long for all its samples on an input.
const INPUT_NANOS: f64 = 8_000_000.0;

/// A sample repeats its work for at least this long, so that reading the clock doesn't count.
const SAMPLE_NANOS: f64 = 100_000.0;

/// Medians over all inputs.
pub struct Times<const WAYS: usize> {
    /// Of each way.
    pub nanos: [f64; WAYS],
    /// Of the proved code over each way after it, by samples next to each other: the machine's pace may change.
    pub ratios: Vec<f64>,
}

/// Times each way on all inputs; `proved` says which of them is the proved code.
/// They take turns, so that what else the machine does falls on all.
pub fn medians<T, const WAYS: usize>(inputs: &[T], proved: usize, ways: [&dyn Fn(&T); WAYS]) -> Times<WAYS> {
    let mut samples: [Vec<f64>; WAYS] = std::array::from_fn(|_| Vec::new());
    let mut ratios = vec![Vec::new(); WAYS - 1 - proved];
    for input in inputs {
        let plans = ways.map(|way| plan(|| way(input)));
        for round in 0..SAMPLES {
            let taken: [Option<f64>; WAYS] = std::array::from_fn(|way| {
                let Plan { repeats, samples } = plans[way];
                (round < samples).then(|| time(|| ways[way](input), repeats))
            });
            for (samples, taken) in samples.iter_mut().zip(taken) {
                samples.extend(taken);
            }
            for (ratios, other) in ratios.iter_mut().zip(&taken[proved + 1..]) {
                ratios.extend(taken[proved].zip(*other).map(|(proved, other)| proved / other));
            }
        }
    }
    Times { nanos: samples.map(median), ratios: ratios.into_iter().map(median).collect() }
}

#[derive(Clone, Copy)]
struct Plan {
    repeats: usize,
    samples: usize,
}

fn plan(work: impl Fn()) -> Plan {
    let mut repeats = 1;
    loop {
        let sample = time(&work, repeats) * repeats as f64;
        if sample >= SAMPLE_NANOS {
            let samples = (INPUT_NANOS / sample) as usize;
            return Plan { repeats, samples: samples.clamp(FEWEST_SAMPLES, SAMPLES) };
        }
        repeats *= 2;
    }
}

/// Nanoseconds for one piece of work. One goes before the clock: else a way pays for what the one before it left
/// behind.
fn time(work: impl Fn(), repeats: usize) -> f64 {
    work();
    let begin = Instant::now();
    for _ in 0..repeats {
        work();
    }
    begin.elapsed().as_nanos() as f64 / repeats as f64
}

fn median(mut samples: Vec<f64>) -> f64 {
    samples.sort_by(f64::total_cmp);
    samples[samples.len() / 2]
}

const LABEL: usize = 18;

/// A section's table, printed row by row.
pub struct Section {
    /// Columns with their decimals.
    columns: Vec<(&'static str, usize)>,
}

impl Section {
    /// Prints the head.
    pub fn new(title: &str, label: &str, columns: &[(&'static str, usize)]) -> Section {
        println!("{title}");
        print!("{label:>LABEL$}");
        for (column, _) in columns {
            print!("  {column:>width$}", width = width(column));
        }
        println!();
        Section { columns: columns.to_vec() }
    }

    pub fn row(&self, label: &str, values: &[f64]) {
        print!("{label:>LABEL$}");
        for ((column, decimals), value) in self.columns.iter().zip(values) {
            print!("  {value:>width$.decimals$}", width = width(column));
        }
        println!();
    }
}

fn width(column: &str) -> usize {
    column.len().max(9)
}
