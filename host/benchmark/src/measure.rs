//! Median times of two workloads, measured in turn.

use std::time::{Duration, Instant};

/// How many times each is measured.
pub const SAMPLES: usize = 31;
/// A sample is the quickest of so many bursts of calls. The two take turns, so that both meet the
/// same weather, and a burst that another process broke into does not count.
pub const BURSTS: usize = 10;
/// How long a burst lasts at least.
pub const BURST: Duration = Duration::from_micros(300);

/// Makes so many calls and says how long they took, without what goes on between them.
pub type Workload<'a> = dyn FnMut(usize) -> Duration + 'a;

/// Median times of one call in microseconds, and the median of the samples' ratios.
#[derive(Clone, Copy)]
pub struct Times {
    pub ours: f64,
    pub theirs: f64,
    pub ratio: f64,
}

pub fn compare(ours: &mut Workload, theirs: &mut Workload) -> Times {
    let counts = (calls_for_a_burst(ours), calls_for_a_burst(theirs));
    let samples: Vec<(f64, f64)> = (0..SAMPLES).map(|_| sample(ours, theirs, counts)).collect();
    Times {
        ours: median(samples.iter().map(|sample| sample.0)),
        theirs: median(samples.iter().map(|sample| sample.1)),
        ratio: median(samples.iter().map(|sample| sample.0 / sample.1)),
    }
}

/// Also warms up.
fn calls_for_a_burst(work: &mut Workload) -> usize {
    let mut count = 1;
    while work(count) < BURST {
        count *= 2;
    }
    count
}

/// The time of a call of each, in microseconds.
fn sample(ours: &mut Workload, theirs: &mut Workload, counts: (usize, usize)) -> (f64, f64) {
    let mut best = (Duration::MAX, Duration::MAX);
    for _ in 0..BURSTS {
        best.0 = best.0.min(ours(counts.0));
        best.1 = best.1.min(theirs(counts.1));
    }
    (per_call(best.0, counts.0), per_call(best.1, counts.1))
}

fn per_call(burst: Duration, count: usize) -> f64 {
    burst.as_secs_f64() * 1e6 / count as f64
}

fn median(numbers: impl Iterator<Item = f64>) -> f64 {
    let mut row: Vec<f64> = numbers.collect();
    row.sort_by(f64::total_cmp);
    row[row.len() / 2]
}

/// How long some work takes.
pub fn timed(work: impl FnOnce()) -> Duration {
    let start = Instant::now();
    work();
    start.elapsed()
}
