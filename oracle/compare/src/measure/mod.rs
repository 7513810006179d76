//! Measuring the proved code beside the Rust: the time of rounds, run by run; the stack that a call
//! reaches; the bytes that it stores.
pub mod machine;
pub mod plot;
pub mod rows;
pub mod stack;
pub mod trace;

use std::time::{Duration, Instant};

/// A round of one side's work, again and again: its time in the unit of the row.
pub type Side<'a> = &'a mut dyn FnMut() -> f64;

/// How long a run goes on, at least.
const RUN: Duration = Duration::from_millis(20);

/// Lets each side make a run in turn, so that what disturbs the machine hits them all. The times are
/// those of the runs.
pub fn alternate<const N: usize>(runs: usize, mut sides: [Side; N]) -> [Times; N] {
    let mut times = [const { Times(Vec::new()) }; N];
    for _ in 0..runs {
        for (side, times) in sides.iter_mut().zip(&mut times) {
            times.0.push(run(side));
        }
    }
    times
}

/// The time of a run: that of its quickest round, which was interrupted least.
fn run(side: &mut Side) -> f64 {
    let begun = Instant::now();
    let mut quickest = side();
    while begun.elapsed() < RUN {
        quickest = quickest.min(side());
    }
    quickest
}

/// The times of a side's runs, first run first.
pub struct Times(Vec<f64>);

impl Times {
    pub fn median(&self) -> f64 {
        let mut times = self.0.clone();
        times.sort_by(f64::total_cmp);
        let half = times.len() / 2;
        if times.len() % 2 == 1 { times[half] } else { (times[half - 1] + times[half]) / 2.0 }
    }

    /// The ratio of the medians.
    pub fn over(&self, other: &Self) -> f64 {
        self.median() / other.median()
    }

    /// What is left of each run without the other's.
    pub fn minus(&self, other: &Self) -> Self {
        Self(self.0.iter().zip(&other.0).map(|(time, other)| time - other).collect())
    }

    /// The median, and the lowest and the highest run.
    pub fn text(&self, digits: usize) -> String {
        let lowest = self.0.iter().copied().fold(f64::INFINITY, f64::min);
        let highest = self.0.iter().copied().fold(f64::NEG_INFINITY, f64::max);
        format!("{:.digits$} ({lowest:.digits$}–{highest:.digits$})", self.median())
    }
}

pub fn nanoseconds(work: impl FnOnce()) -> f64 {
    let begun = Instant::now();
    work();
    begun.elapsed().as_nanos() as f64
}

pub fn microseconds(work: impl FnOnce()) -> f64 {
    nanoseconds(work) / 1_000.0
}
