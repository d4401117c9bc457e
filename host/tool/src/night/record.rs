//! What the closing table tells of a floor.

use super::timeline::{seconds, ticks};
use crate::numbers::thousands;
use plain::{BoxState, LinkState};
use std::io::{self, Write};

/// How head and box see each other.
#[derive(Clone, Copy, Debug, Default, PartialEq, Eq)]
pub(super) enum Pair {
    /// Neither is registered for the other, or a link only waits.
    #[default]
    Apart,
    /// Both are registered.
    Together,
    /// The box is registered and the head holds no link for it.
    BoxAlone,
    /// The head has a registered link and the box isn't registered.
    HeadAlone,
}

impl Pair {
    pub(super) fn of(link: LinkState, floor_box: BoxState) -> Pair {
        let box_registered = floor_box == BoxState::Registered;
        match (link, box_registered) {
            (LinkState::Registered, true) => Pair::Together,
            (LinkState::Registered, false) => Pair::HeadAlone,
            (LinkState::Idle, true) => Pair::BoxAlone,
            _ => Pair::Apart,
        }
    }

    fn is_half_open(self) -> bool {
        matches!(self, Pair::BoxAlone | Pair::HeadAlone)
    }
}

/// What is kept of a floor through the night, in ticks.
#[derive(Clone, Debug, Default)]
pub(super) struct Record {
    pair: Pair,
    /// When the pair came to be seen so.
    changed: u64,
    /// Up to where its time is booked.
    booked: u64,
    together: u64,
    pub(super) longest_half_open: u64,
    dropped: u64,
    left: u64,
    last_drop: Option<u64>,
    last_leave: Option<u64>,
}

impl Record {
    /// The pair is now seen so.
    pub(super) fn see(&mut self, now: u64, pair: Pair) {
        if pair != self.pair {
            self.close(now);
            self.pair = pair;
            self.changed = now;
        }
    }

    /// Books the time since the pair last changed.
    pub(super) fn close(&mut self, now: u64) {
        let passed = now - self.booked;
        self.booked = now;
        if self.pair == Pair::Together {
            self.together += passed;
        }
        if self.pair.is_half_open() {
            self.longest_half_open = self.longest_half_open.max(passed);
        }
    }

    /// The head has dropped the box.
    pub(super) fn drop_at(&mut self, now: u64) {
        self.dropped += 1;
        self.last_drop = Some(now);
    }

    /// The box has left.
    pub(super) fn leave_at(&mut self, now: u64) {
        self.left += 1;
        self.last_leave = Some(now);
    }

    /// When the box was last dropped and when it last left, in their order, and
    /// since when it is back, if it is.
    pub(super) fn write_story(&self, output: &mut impl Write, floor: u32) -> io::Result<()> {
        let dropped = self.last_drop.map(|at| (at, "was dropped by the head"));
        let left = self.last_leave.map(|at| (at, "left"));
        let mut story: Vec<(u64, &str)> = dropped.into_iter().chain(left).collect();
        story.sort_unstable();
        let registered = match story.is_empty() {
            true => "registered",
            false => "back",
        };
        for (at, what) in story {
            write_moment(output, floor, what, at)?;
        }
        match self.pair {
            Pair::Together => {
                write_moment(output, floor, &format!("was {registered}"), self.changed)
            }
            _ => writeln!(
                output,
                "Floor {floor} was not {registered} when the night ended."
            ),
        }
    }

    /// The closing table's head.
    pub(super) fn write_titles(output: &mut impl Write) -> io::Result<()> {
        writeln!(
            output,
            "\n{:>5}  {:>14}  {:>15}  {:>14}  {:>29}  at the end",
            "floor", "registered", "dropped by head", "left", "longest half-open"
        )
    }

    /// The closing table's line of a floor.
    pub(super) fn write(&self, output: &mut impl Write, floor: u32) -> io::Result<()> {
        let end = match self.pair {
            Pair::Apart => "not registered",
            Pair::Together => "registered",
            Pair::BoxAlone => "half-open, box alone",
            Pair::HeadAlone => "half-open, head alone",
        };
        writeln!(
            output,
            "{floor:>5}  {:>12} s  {:>15}  {:>14}  {:>10} s {:>17}  {end}",
            seconds(self.together),
            self.dropped,
            self.left,
            seconds(self.longest_half_open),
            ticks(self.longest_half_open),
        )
    }
}

fn write_moment(output: &mut impl Write, floor: u32, what: &str, at: u64) -> io::Result<()> {
    let (seconds, tick) = (seconds(at), thousands(at));
    writeln!(output, "Floor {floor} {what} at {seconds} s (tick {tick}).")
}
