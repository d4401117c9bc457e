//! What an advance answers, and how many ticks it says it made.

use super::{require, DONE, GRANT, SHORT};
use crate::guarded::Guarded;
use crustnewt::sys::{MADE_WORDS, MOST_TICKS};

/// Where box and head have their count.
const COUNT: usize = 1;

/// Whether an advance is lent too little to tell its ticks in.
pub fn is_short(asked: Option<u64>, made: usize) -> bool {
    asked.is_some() && made < MADE_WORDS
}

/// The ticks that a call says it made: 0 where it is refused, 1 to as many as
/// were asked for when it is done. Where too little was lent, and where no
/// ticks were asked for, nothing is written.
pub fn require_made(made: &Guarded<u64>, asked: Option<u64>, number: u8) -> Result<u64, String> {
    let Some(asked) = asked.filter(|_| number != SHORT) else {
        require(made.is_kept(), "ticks are told that nobody asked for")?;
        return Ok(0);
    };
    let behind = made.is_kept_from(MADE_WORDS);
    require(behind, "words behind the ticks made were touched")?;
    let told = made.now()[0];
    let right = match number {
        DONE => (1..=asked.min(MOST_TICKS)).contains(&told),
        _ => told == 0,
    };
    require(right, &format!("{told} ticks made, for answer {number}"))?;
    Ok(told)
}

/// The answer is what comes `ahead` where something does, 9 exactly where the
/// number is out of its range, and else done or one that may come `last`.
pub fn require_answer(
    number: u8,
    asked: u64,
    ahead: Option<u8>,
    last: Option<u8>,
) -> Result<(), String> {
    let right = match ahead {
        Some(ahead) => number == ahead,
        None if !(1..=MOST_TICKS).contains(&asked) => number == GRANT,
        None => number == DONE || Some(number) == last,
    };
    require(right, &format!("an advance is answered {number}"))
}

/// A count moves by the ticks made.
pub fn require_counted(before: &[u64], after: &[u64], made: u64) -> Result<(), String> {
    let moved = (after[COUNT] as u32).wrapping_sub(before[COUNT] as u32);
    require(u64::from(moved) == made, "the count moved otherwise")
}
