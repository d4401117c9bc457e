//! How far the simulation is.

use crate::progress::ProgressLine;
use plain::numbers::TICKS_PER_SECOND;
use std::time::{Duration, Instant};

/// Steps between looks at the wall clock, which cost more than a tick.
const STEPS_BETWEEN_LOOKS: u32 = 4096;

/// Shows how much of a night is simulated.
pub struct Progress<'a> {
    line: ProgressLine<'a>,
    ticks: u64,
    steps: u32,
    between: Duration,
    next: Instant,
}

impl<'a> Progress<'a> {
    /// Progress through so many ticks, shown there when so much time has
    /// passed since it was shown last.
    pub fn new(line: ProgressLine<'a>, ticks: u64, between: Duration) -> Progress<'a> {
        Progress {
            line,
            ticks,
            steps: 0,
            between,
            next: Instant::now() + between,
        }
    }

    /// Nobody waits.
    pub fn nowhere() -> Progress<'a> {
        Progress::new(ProgressLine::nowhere(), 0, Duration::ZERO)
    }

    /// One step was made, which led to tick `now`.
    pub(super) fn step(&mut self, now: u64) {
        self.steps = self.steps.wrapping_add(1);
        if !self.line.is_seen()
            || !self.steps.is_multiple_of(STEPS_BETWEEN_LOOKS)
            || Instant::now() < self.next
        {
            return;
        }
        self.next = Instant::now() + self.between;
        let [done, all] = [now, self.ticks].map(|ticks| ticks as f64 / TICKS_PER_SECOND as f64);
        self.line
            .show(&format!("{done:.2} of {all:.2} s simulated"));
    }

    /// Takes the progress off the terminal, so that a line can be written.
    pub(super) fn clear(&mut self) {
        self.line.clear();
    }
}
