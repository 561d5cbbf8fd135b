//! Times, in milliseconds, and ratios.
use std::time::{Duration, Instant};

pub const PARTS: [&str; 5] =
    ["planning", "labels and opening", "rows and S words", "cells and finishing", "tables"];

/// The time of each part.
pub type Parts = [Duration; PARTS.len()];

/// Is told which part comes next.
pub trait Stopwatch {
    fn turn(&mut self, part: usize);
}

/// Stands still.
pub struct Still;

impl Stopwatch for Still {
    #[inline(always)]
    fn turn(&mut self, _: usize) {}
}

pub struct Running {
    at: usize,
    since: Instant,
    pub spent: Parts,
}

impl Running {
    pub fn new() -> Running {
        Running { at: 0, since: Instant::now(), spent: Default::default() }
    }
}

impl Stopwatch for Running {
    fn turn(&mut self, part: usize) {
        let now = Instant::now();
        self.spent[self.at] += now - self.since;
        (self.at, self.since) = (part, now);
    }
}

/// What a run made, and how long it took.
pub fn timed<T>(run: impl FnOnce() -> T) -> (T, Duration) {
    let start = Instant::now();
    let made = run();
    (made, start.elapsed())
}

#[derive(Clone, Default)]
pub struct Times(Vec<Duration>);

impl Times {
    pub fn push(&mut self, time: Duration) {
        self.0.push(time);
    }

    pub fn least(&self) -> f64 {
        self.0.iter().min().expect("a round").as_secs_f64() * 1e3
    }

    pub fn median(&self) -> f64 {
        let mut all = self.0.clone();
        all.sort();
        all[all.len() / 2].as_secs_f64() * 1e3
    }
}

/// A whole or a part on both sides.
#[derive(Clone, Default)]
pub struct Pair {
    pub ours: Times,
    pub theirs: Times,
}

impl Pair {
    /// Of the least times.
    pub fn ratio(&self) -> f64 {
        self.ours.least() / self.theirs.least()
    }

    pub fn ratio_of_medians(&self) -> f64 {
        self.ours.median() / self.theirs.median()
    }

    /// Five cells of a table.
    pub fn cells(&self) -> String {
        let (ours, theirs) = (&self.ours, &self.theirs);
        format!(
            "{} | {} | {} | {} | {:.2}",
            shown(ours.least()),
            shown(ours.median()),
            shown(theirs.least()),
            shown(theirs.median()),
            self.ratio()
        )
    }
}

/// The heads of these cells.
pub const HEADS: &str = "ours, least | ours, median | original, least | original, median | ratio";

/// A time with three digits after the point, four below a tenth.
pub fn shown(time: f64) -> String {
    if time < 0.1 {
        format!("{time:.4}")
    } else {
        format!("{time:.3}")
    }
}
