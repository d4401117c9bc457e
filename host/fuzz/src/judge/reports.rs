//! REPORTs: what a client that asks for one is answered, and what a notice
//! tells of one that was heard.

use super::states::{told, Told};
use super::{require, Left, DONE, RANGE, STATE, UNSOUND};
use crustnewt::sys::FRAME_OCTETS;
use plain::{Body, BoxState, QueueSets};

/// Words that hold the body of a REPORT, in a message and in a notice.
pub const SETS_WORDS: usize = 5;

/// Where a frame has its body.
const BODY_AT: usize = FRAME_OCTETS - QueueSets::OCTETS;

/// The kind of a notice that a REPORT was heard.
const REPORT: u64 = 4;

/// The body that these words hold, in range or not: eight octets each, the
/// first the highest.
pub fn sets_of(words: &[u64; SETS_WORDS]) -> QueueSets {
    let mut octets = [0; QueueSets::OCTETS];
    for (octets, word) in octets.chunks_exact_mut(8).zip(words) {
        octets.copy_from_slice(&word.to_be_bytes());
    }
    QueueSets::of_octets(octets)
}

/// A client is answered 13, 7 and 4 in this order; 4 unless the octets that it
/// lends are exactly so many sets, and no more than fit.
pub fn require_answer(number: u8, asked: u8, sets: &[u8], block: &[u64]) -> Result<(), String> {
    let right = match told(block) {
        Told::State(state) if state.is_sound() => match state.state {
            BoxState::Registered if QueueSets::of(asked, sets).is_some() => DONE,
            BoxState::Registered => RANGE,
            _ => STATE,
        },
        _ => UNSOUND,
    };
    require(
        number == right,
        &format!("a report is answered {number}, not {right}"),
    )
}

/// It is handed one frame, with the number, the sets and zeros.
pub fn require_handed_out(left: &Left, asked: u8, sets: &[u8]) -> Result<(), String> {
    let one = left.frames.len() == FRAME_OCTETS;
    require(one, "a report is another number of frames")?;
    let [number, rest @ ..] = &left.frames[BODY_AT..] else {
        return Err("a frame has no body".to_owned());
    };
    let said = *number == asked && rest.starts_with(sets);
    require(said, "a report says something else")?;
    let zeros = rest[sets.len()..].iter().all(|&octet| octet == 0);
    require(zeros, "a report goes on behind its sets")
}

/// A notice tells of a REPORT exactly where one was heard: its body, and of
/// anything else five times 0.
pub fn require_told(kind: u64, words: &[u64; SETS_WORDS], heard: &[u8]) -> Result<(), String> {
    let sets = match plain::frame::read(heard).map(|message| message.body) {
        Ok(Body::Report(sets)) => Some(sets),
        _ => None,
    };
    let told = sets.is_some() == (kind == REPORT);
    require(told, "a notice tells of something else")?;
    let right = sets.unwrap_or(QueueSets::NONE) == sets_of(words);
    require(right, "a notice tells other sets")
}
