//! What a simulator takes within an objective, so that it can be taken off.

use std::cell::Cell;
use std::rc::Rc;
use std::time::{Duration, Instant};

/// Adds up what runs of the simulator take. Clones share their sum.
#[derive(Clone, Default)]
pub struct Stopwatch {
    taken: Rc<Cell<Duration>>,
    runs: Rc<Cell<u32>>,
}

impl Stopwatch {
    pub fn time<T>(&self, run: impl FnOnce() -> T) -> T {
        let begun = Instant::now();
        let made = run();
        self.taken.set(self.taken.get() + begun.elapsed());
        self.runs.set(self.runs.get() + 1);
        made
    }

    pub fn reset(&self) {
        self.taken.set(Duration::ZERO);
        self.runs.set(0);
    }

    pub fn taken(&self) -> Duration {
        self.taken.get()
    }

    pub fn runs(&self) -> u32 {
        self.runs.get()
    }
}

/// What a stopwatch itself takes for a run, in nanoseconds: what it sees of
/// that, and the part of its two readings of the clock that lies outside.
#[derive(Clone, Copy, Debug)]
pub struct Reading {
    pub seen: f64,
    pub unseen: f64,
}

impl Reading {
    pub fn of_the_clock() -> Self {
        const RUNS: u32 = 10_000;
        let mut batches: Vec<(f64, f64)> = Vec::new();
        for _ in 0..15 {
            let stopwatch = Stopwatch::default();
            let begun = Instant::now();
            for run in 0..RUNS {
                stopwatch.time(|| std::hint::black_box(run));
            }
            let whole = nanoseconds(begun.elapsed()) / f64::from(RUNS);
            let seen = nanoseconds(stopwatch.taken()) / f64::from(RUNS);
            batches.push((seen, whole - seen));
        }
        Reading {
            seen: median(batches.iter().map(|batch| batch.0).collect()),
            unseen: median(batches.iter().map(|batch| batch.1).collect()),
        }
    }
}

pub fn nanoseconds(duration: Duration) -> f64 {
    duration.as_secs_f64() * 1e9
}

pub fn median(mut numbers: Vec<f64>) -> f64 {
    numbers.sort_by(f64::total_cmp);
    let middle = numbers.len() / 2;
    if numbers.len() % 2 == 1 {
        return numbers[middle];
    }
    (numbers[middle - 1] + numbers[middle]) / 2.
}
