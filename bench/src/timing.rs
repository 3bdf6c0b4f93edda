//! Times of two sides that take turns, so that load on the machine falls on both, in passes over all rows, so that
//! a slow minute does not fall on one row alone.

use crate::clock::Clock;

/// One row of the table: a batch of calls on each side. The Rust has no tree check.
pub struct Row {
    pub name: String,
    /// Calls, or what else the times are divided by, in a batch.
    pub units: f64,
    pub clock: Clock,
    pub ours: Box<dyn FnMut()>,
    pub rust: Option<Box<dyn FnMut()>>,
}

/// Nanoseconds a unit.
#[derive(Clone, Copy)]
pub struct Times {
    pub least: f64,
    pub median: f64,
}

pub struct Measured {
    pub name: String,
    pub ours: Times,
    pub rust: Option<Times>,
}

pub const PASSES: usize = 3;
pub const REPETITIONS: usize = 7;

/// Nanoseconds that a repetition of the faster side should take at least.
const SAMPLE: f64 = 4.0e6;

fn nanoseconds(clock: Clock, batch: &mut dyn FnMut(), times: u64) -> f64 {
    let start = clock();
    for _ in 0..times {
        batch();
    }
    clock() - start
}

/// A row with how many batches make a repetition, and the repetitions so far.
struct Sampled {
    row: Row,
    batches: u64,
    ours: Vec<f64>,
    rust: Vec<f64>,
}

impl Sampled {
    fn of(mut row: Row) -> Self {
        let mut once = f64::INFINITY;
        for _ in 0..2 {
            once = once.min(nanoseconds(row.clock, &mut row.ours, 1));
            if let Some(rust) = &mut row.rust {
                once = once.min(nanoseconds(row.clock, rust, 1));
            }
        }
        Self {
            row,
            batches: (SAMPLE / once.max(1.0)).ceil().max(1.0) as u64,
            ours: Vec::new(),
            rust: Vec::new(),
        }
    }

    fn pass(&mut self) {
        let (clock, batches) = (self.row.clock, self.batches);
        for _ in 0..REPETITIONS {
            self.ours
                .push(nanoseconds(clock, &mut self.row.ours, batches));
            if let Some(rust) = &mut self.row.rust {
                self.rust.push(nanoseconds(clock, rust, batches));
            }
        }
    }

    fn measured(self) -> Measured {
        let units = self.row.units * self.batches as f64;
        Measured {
            name: self.row.name,
            ours: times(self.ours, units),
            rust: (!self.rust.is_empty()).then(|| times(self.rust, units)),
        }
    }
}

fn times(mut samples: Vec<f64>, units: f64) -> Times {
    samples.sort_by(f64::total_cmp);
    Times {
        least: samples[0] / units,
        median: samples[samples.len() / 2] / units,
    }
}

pub fn measure(rows: impl Iterator<Item = Row>) -> Vec<Measured> {
    let mut sampled: Vec<Sampled> = rows.map(Sampled::of).collect();
    for _ in 0..PASSES {
        sampled.iter_mut().for_each(Sampled::pass);
    }
    sampled.into_iter().map(Sampled::measured).collect()
}
