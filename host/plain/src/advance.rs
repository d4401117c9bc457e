//! Many ticks in one call (R191 to R195).
//!
//! An advance is defined by single ticks: they are made until as many are made
//! as were asked for, or the last one handed something out, or the next would
//! be refused. Ticks in which no timer ends do nothing but count, so box and
//! head pass all of them at once and make the one behind them as any tick.

use crate::numbers::MOST_TICKS;
use crate::refusal::Refusal;

/// What an accepted advance hands out: the answer of the last tick made, and
/// how many were made, from 1 to the number asked for.
#[derive(Clone, Copy, Debug, Default, PartialEq, Eq)]
pub struct Advanced<A> {
    /// What the last tick made handed out.
    pub answer: A,
    /// Ticks made.
    pub made: u32,
}

/// The ticks to make, or 9 where a call makes no such number. All 64 bits are
/// judged: 2^32 + 1 isn't 1.
pub(crate) fn asked(ticks: u64) -> Result<u32, Refusal> {
    u32::try_from(ticks)
        .ok()
        .filter(|ticks| (1..=MOST_TICKS).contains(ticks))
        .ok_or(Refusal::BadGrant)
}
