//! How far the comparison has come, and why it stops.

use std::time::{Duration, Instant};

use super::check::Input;
use crate::calls::case::Case;

/// A line is told after so long.
const EVERY: Duration = Duration::from_secs(5);

pub enum Stop {
    TimeIsUp,
    Difference(Box<Case>, String),
}

impl Stop {
    pub fn difference(input: Input, told: String) -> Self {
        Stop::Difference(Box::new(input.case()), told)
    }
}

pub struct Progress {
    pub runs: u64,
    /// What is being gone through.
    pub part: String,
    start: Instant,
    told: Instant,
    told_runs: u64,
    deadline: Option<Instant>,
}

impl Progress {
    pub fn new() -> Self {
        let start = Instant::now();
        Progress {
            runs: 0,
            part: String::new(),
            start,
            told: start,
            told_runs: 0,
            deadline: None,
        }
    }

    /// Stops so long after the start.
    pub fn stop_after(&mut self, time: Duration) {
        self.deadline = Some(self.start + time);
    }

    /// Counts a run.
    pub fn count(&mut self) -> Result<(), Stop> {
        self.runs += 1;
        if !self.runs.is_multiple_of(64) {
            return Ok(());
        }
        let now = Instant::now();
        if now - self.told >= EVERY {
            let rate = (self.runs - self.told_runs) as f64 / (now - self.told).as_secs_f64();
            eprintln!(
                "runs: {}: {} runs so far, {rate:.0} a second",
                self.part, self.runs
            );
            (self.told, self.told_runs) = (now, self.runs);
        }
        match self.deadline {
            Some(deadline) if now >= deadline => Err(Stop::TimeIsUp),
            _ => Ok(()),
        }
    }
}
