//! The timeline that a person reads.

use super::progress::Progress;
use crate::numbers::{plural, thousands};
use plain::numbers::TICKS_PER_SECOND;
use std::fmt;
use std::io::{self, Write};

/// Writes lines of time, floor and what happened. Progress may be on the same
/// terminal, so it is taken away before each.
pub(super) struct Timeline<'a, W> {
    pub(super) output: W,
    pub(super) progress: Progress<'a>,
}

impl<W: Write> Timeline<'_, W> {
    pub(super) fn tell(
        &mut self,
        now: u64,
        floor: Option<u32>,
        what: impl fmt::Display,
    ) -> io::Result<()> {
        let who = match floor {
            Some(floor) => format!("floor {floor}"),
            None => "head".to_owned(),
        };
        self.progress.clear();
        writeln!(
            self.output,
            "{:>12} s  tick {:>15}  {who:<9} {what}",
            seconds(now),
            thousands(now)
        )
    }
}

/// Seconds with six digits behind the point.
pub(super) fn seconds(ticks: u64) -> String {
    let (whole, rest) = (ticks / TICKS_PER_SECOND, ticks % TICKS_PER_SECOND);
    // Rounded down; a tick is 16 ns.
    format!("{whole}.{:06}", rest * 16 / 1000)
}

/// So many ticks.
pub(super) fn ticks(ticks: u64) -> String {
    format!("{} {}", thousands(ticks), plural(ticks, "tick", "ticks"))
}

#[cfg(test)]
mod tests {
    use super::*;

    #[test]
    fn times_are_readable() {
        assert_eq!(seconds(62_500_000), "1.000000");
        assert_eq!(seconds(93_750_063), "1.500001");
        assert_eq!(ticks(1), "1 tick");
        assert_eq!(ticks(62_500_000), "62,500,000 ticks");
    }
}
