//! How long a call takes: the median of several runs, and how far they spread.

use std::fmt;
use std::hint::black_box;
use std::time::{Duration, Instant};

/// Seconds for one call.
#[derive(Clone, Copy, Debug)]
pub struct Timing {
    pub median: f64,
    pub least: f64,
    pub most: f64,
}

impl Timing {
    pub fn of(mut seconds: Vec<f64>) -> Timing {
        seconds.sort_by(f64::total_cmp);
        Timing { median: seconds[seconds.len() / 2], least: seconds[0], most: seconds[seconds.len() - 1] }
    }
}

/// Seconds in a unit that reads well.
pub fn readable(seconds: f64) -> String {
    let (scale, unit) = match seconds {
        s if s < 1e-6 => (1e9, "ns"),
        s if s < 1e-3 => (1e6, "µs"),
        s if s < 1.0 => (1e3, "ms"),
        _ => (1.0, "s"),
    };
    let number = seconds * scale;
    if number < 10.0 {
        format!("{number:.2} {unit}")
    } else {
        format!("{number:.0} {unit}")
    }
}

impl fmt::Display for Timing {
    fn fmt(&self, f: &mut fmt::Formatter) -> fmt::Result {
        write!(f, "{} ({} to {})", readable(self.median), readable(self.least), readable(self.most))
    }
}

/// How many runs, and how long each lasts at least.
#[derive(Clone, Copy, Debug)]
pub struct Effort {
    pub runs: usize,
    pub run: Duration,
}

pub const QUICK: Effort = Effort { runs: 11, run: Duration::from_micros(1500) };
pub const FULL: Effort = Effort { runs: 21, run: Duration::from_millis(20) };

/// One run: seconds for a call, warmed up, and repeated until the run is long enough.
pub fn once<T>(effort: Effort, mut call: impl FnMut() -> T) -> f64 {
    let start = Instant::now();
    black_box(call());
    let repeats = (effort.run.as_nanos() / start.elapsed().as_nanos().max(1)).max(1) as u32;
    let start = Instant::now();
    for _ in 0..repeats {
        black_box(call());
    }
    start.elapsed().as_secs_f64() / f64::from(repeats)
}

/// Times the call. One that is itself much longer than a run is timed as often as in the short form.
pub fn time<T>(effort: Effort, mut call: impl FnMut() -> T) -> Timing {
    let runs = if once(effort, &mut call) > effort.run.as_secs_f64() * 20.0 { QUICK.runs } else { effort.runs };
    Timing::of((0..runs).map(|_| once(effort, &mut call)).collect())
}

/// What several take for the same, in turn, a round after another, so that a slow moment of the machine falls on all.
#[derive(Default)]
pub struct Rounds([Vec<f64>; 4]);

impl Rounds {
    pub fn add(&mut self, who: usize, seconds: Option<f64>) {
        self.0[who].extend(seconds);
    }

    pub fn timing(&self, who: usize) -> Option<Timing> {
        (!self.0[who].is_empty()).then(|| Timing::of(self.0[who].clone()))
    }

    /// The middle one of the rounds' ratios.
    pub fn ratio(&self, one: usize, other: usize) -> Option<f64> {
        let ratios: Vec<f64> = self.0[one].iter().zip(&self.0[other]).map(|(one, other)| one / other).collect();
        (!ratios.is_empty()).then(|| Timing::of(ratios).median)
    }
}
