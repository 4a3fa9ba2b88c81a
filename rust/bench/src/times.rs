//! Times: the least of many samples, taken in turn, so that a slow moment of the machine hits both judges.

use crate::{judgements, Sides};
use compare::judge::{Judge, Which};
use generate::Case;
use std::time::{Duration, Instant};

/// A sample should take about so long.
const SAMPLE: Duration = Duration::from_micros(500);

/// What a judgement costs each judge.
pub struct Pair {
    /// The proved library.
    pub proved: f64,
    /// The plain judge.
    pub plain: f64,
}

impl Pair {
    /// How many times as much the proved judge costs.
    pub fn ratio(&self) -> f64 {
        self.proved / self.plain
    }

    /// Both costs, in so large a unit, and their ratio.
    pub fn shown(&self, unit: f64) -> String {
        let digits = if unit > 1.0 { 2 } else { 0 };
        format!("{:>10.digits$} {:>10.digits$} {:>5.2}", self.proved / unit, self.plain / unit, self.ratio())
    }
}

/// The least time of a judgement in nanoseconds, of so many samples of each judge.
pub fn times(sides: &Sides, which: Which, case: &Case, samples: u32) -> Pair {
    let one = sample(&sides.plain, which, case, 1);
    let calls = (SAMPLE.as_nanos() as f64 / one).clamp(1.0, 1000.0) as u32;
    let mut least = Pair { proved: f64::MAX, plain: f64::MAX };
    for _ in 0..samples {
        least.proved = least.proved.min(sample(&sides.proved, which, case, calls));
        least.plain = least.plain.min(sample(&sides.plain, which, case, calls));
    }
    least
}

/// Nanoseconds of one of so many judgements.
fn sample(judge: &Judge, which: Which, case: &Case, calls: u32) -> f64 {
    let start = Instant::now();
    judgements(judge, which, case, calls);
    start.elapsed().as_nanos() as f64 / f64::from(calls)
}
