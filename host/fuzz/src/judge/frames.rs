//! Reader and writer, and the source of every frame.

use super::messages::{is_source, message_of};
use super::{both, require, require_number, word, Left, DONE, RANGE, SHORT};
use crate::call::Face;
use crate::guarded::Guarded;
use crustnewt::sys::{FRAME_OCTETS, MESSAGE_WORDS};
use std::ops::Range;

/// Where a frame has its source.
pub const SOURCE: Range<usize> = 6..12;

/// The words of an empty REPORT with every field 0: its kind stands fourth.
const BLANK: [u64; MESSAGE_WORDS] = {
    let mut words = [0; MESSAGE_WORDS];
    words[3] = 2;
    words
};

/// Reads octets into so many words and holds the answer against the header.
pub fn judge_read(face: &dyn Face, octets: &[u8], words: usize) -> Result<Left, String> {
    let left = both(|filler| {
        let mut lent = Guarded::new(octets, octets.len(), filler);
        let mut message = Guarded::new(&[], words, word(filler));
        let number = face.read(lent.lend(), message.lend());
        require(lent.is_kept(), "reading changed the octets")?;
        require_number(number, words < MESSAGE_WORDS)?;
        if number == SHORT {
            require(message.is_kept(), "too few words, and some were touched")?;
            return Ok(only(number));
        }
        let behind = message.is_kept_from(MESSAGE_WORDS);
        require(behind, "words behind the message were touched")?;
        let block = message.now()[..MESSAGE_WORDS].to_vec();
        let blank = number == DONE || block == BLANK;
        require(blank, "a refused frame has words")?;
        Ok(Left {
            block,
            ..only(number)
        })
    })?;
    if left.number == SHORT {
        return Ok(left);
    }
    match plain::frame::read(octets) {
        Ok(message) => {
            let read = left.number == DONE && message_of(&left.block) == Some(message);
            require(read, "a frame is read otherwise")?;
            let source = is_source(message.from.0);
            require(source, "a message is from a group or nobody")?;
            require_written(face, &left.block, octets)?;
        }
        Err(refusal) => {
            let refused = left.number == refusal.number();
            require(refused, "a frame is refused otherwise")?;
            require_unwritten(face)?;
        }
    }
    Ok(left)
}

/// The blank words have no frame.
fn require_unwritten(face: &dyn Face) -> Result<(), String> {
    let number = face.write(&BLANK, &mut [0; FRAME_OCTETS]);
    require(number == RANGE, "the blank words are written")
}

/// Each frame that is handed out or written is from someone.
pub fn require_sources(octets: &[u8]) -> Result<(), String> {
    let number = |sum, octet: &u8| sum << 8 | u64::from(*octet);
    let source = |frame: &[u8]| frame[SOURCE].iter().fold(0, number);
    let mut frames = octets.chunks_exact(FRAME_OCTETS);
    let right = frames.all(|frame| is_source(source(frame)));
    require(right, "a frame is from a group or nobody")
}

/// What was read is written and read again as it was; what is written is the
/// frame, but for its pad.
fn require_written(face: &dyn Face, words: &[u64], octets: &[u8]) -> Result<(), String> {
    let mut frame = [0xEE; FRAME_OCTETS];
    require(face.write(words, &mut frame) == DONE, "read, not written")?;
    let pad = |(written, read): (&u8, &u8)| written == read || *written == 0;
    require(frame.iter().zip(octets).all(pad), "written otherwise")?;
    let mut again = [0; MESSAGE_WORDS];
    let number = face.read(&frame, &mut again);
    require(number == DONE && again == words, "read otherwise again")
}

/// Writes so many of these words into so many octets and holds the answer
/// against the header.
pub fn judge_write(
    face: &dyn Face,
    message: &[u64],
    words: usize,
    octets: usize,
) -> Result<Left, String> {
    let left = both(|filler| {
        let mut lent = Guarded::new(message, words, word(filler));
        let mut frame = Guarded::new(&[], octets, filler);
        let number = face.write(lent.lend(), frame.lend());
        require(lent.is_kept(), "writing changed the message")?;
        require_number(number, words < MESSAGE_WORDS || octets < FRAME_OCTETS)?;
        if number == SHORT {
            require(frame.is_kept(), "too few octets, and some were touched")?;
            return Ok(only(number));
        }
        let behind = frame.is_kept_from(FRAME_OCTETS);
        require(behind, "octets behind the frame were touched")?;
        let frames = frame.now()[..FRAME_OCTETS].to_vec();
        let zero = number == DONE || frames == [0; FRAME_OCTETS];
        require(zero, "a refused message has octets")?;
        Ok(Left {
            frames,
            ..only(number)
        })
    })?;
    if left.number == SHORT {
        return Ok(left);
    }
    let frame = message_of(message).and_then(|message| plain::frame::write(&message).ok());
    match frame {
        Some(frame) => {
            let written = left.number == DONE && left.frames == frame;
            require(written, "a message is written otherwise")?;
            require_sources(&frame)?;
        }
        None => require(left.number == RANGE, "words of no message are written")?,
    }
    Ok(left)
}

fn only(number: u8) -> Left {
    Left {
        number,
        ..Left::default()
    }
}
