//! Calls of the box.

use super::advances::{self, require_answer, require_counted, require_made};
use super::frames::require_sources;
use super::reports;
use super::states::{is_sound_box, told, Told};
use super::{
    both, require, require_judged, require_number, word, Left, DONE, RANGE, SHORT, UNSOUND, WINDOW,
};
use crate::call::{BoxCall, Face};
use crate::guarded::Guarded;
use crustnewt::sys::{
    BoxMemory, BOX_FRAMES_OCTETS, BOX_REPLY_WORDS, BOX_WORDS, FRAME_OCTETS, MADE_WORDS,
};
use plain::{Address, Next, Refusal};

/// A block, and how much is lent: words, octets, words, words.
#[derive(Clone, Debug, PartialEq, Eq)]
pub struct BoxLent {
    /// The block.
    pub block: Vec<u64>,
    /// Words of the block.
    pub words: usize,
    /// Octets for frames.
    pub frames: usize,
    /// Words for the reply.
    pub reply: usize,
    /// Words for the ticks made.
    pub made: usize,
}

impl BoxLent {
    /// This block, with as much lent as is needed.
    pub fn enough(block: &[u64]) -> BoxLent {
        BoxLent {
            block: block.to_vec(),
            words: BOX_WORDS,
            frames: BOX_FRAMES_OCTETS,
            reply: BOX_REPLY_WORDS,
            made: MADE_WORDS,
        }
    }

    fn is_short(&self, call: &BoxCall) -> bool {
        self.words < BOX_WORDS
            || self.frames < BOX_FRAMES_OCTETS
            || self.reply < BOX_REPLY_WORDS
            || advances::is_short(call.ticks(), self.made)
    }
}

/// The memory of a call, with its guards.
struct Memory {
    block: Guarded<u64>,
    frames: Guarded<u8>,
    reply: Guarded<u64>,
    made: Guarded<u64>,
}

const DRIFT: usize = 0;
const FRAMES: usize = 1;
/// How many notices.
const NUMBER: usize = 2;
const NOTICES: usize = 3;
const NOTICE: usize = 4;
const MOST_NOTICES: u64 = 4;
const GRANT: u64 = 6;
const LAST_KIND: u64 = 8;

/// Makes a call of a box and holds it against the header.
pub fn judge_box(face: &dyn Face, call: &BoxCall, lent: &BoxLent) -> Result<Left, String> {
    let left = both(|filler| judge_with(face, call, lent, filler))?;
    if left.number == DONE {
        require(is_sound_box(&left.block), "a call left an unsound box")?;
        require_sources(&left.frames)?;
        if let Some(asked) = call.ticks() {
            require_counted(&lent.block, &left.block, left.made)?;
            require_stopped(asked, &left)?;
        }
        if let BoxCall::Report(asked, sets, lent) = call {
            reports::require_handed_out(&left, *asked, &sets[..*lent])?;
            require(left.reply[NUMBER] == 0, "a report tells something")?;
        }
    }
    if left.number != SHORT {
        require_state(left.number, call, &lent.block)?;
    }
    Ok(left)
}

/// An advance that made fewer ticks than it was asked for handed something out,
/// or the next tick would be refused.
fn require_stopped(asked: u64, left: &Left) -> Result<(), String> {
    let silent = left.frames.is_empty() && left.reply[NUMBER] == 0;
    if left.made == asked || !silent {
        return Ok(());
    }
    let Told::State(mut state) = told(&left.block) else {
        return Err("an advance left no state".to_owned());
    };
    let refused = state.tick() == Err(Refusal::UnaskedWindow);
    require(refused, "an advance stopped early")
}

/// The number rests on the words that were handed in, and a fresh box's on its
/// address.
fn require_state(number: u8, call: &BoxCall, block: &[u64]) -> Result<(), String> {
    let heard = match call {
        BoxCall::Report(asked, sets, lent) => {
            return reports::require_answer(number, *asked, &sets[..*lent], block);
        }
        BoxCall::Advance(asked) => {
            let ahead = (!is_sound_box(block)).then_some(UNSOUND);
            return require_answer(number, *asked, ahead, Some(WINDOW));
        }
        BoxCall::Fresh(address) => {
            let party = Address(*address).is_individual();
            let number_of_fresh = if party { DONE } else { RANGE };
            return require(number == number_of_fresh, "a fresh box is answered wrong");
        }
        BoxCall::Hear(octets, _) => Some(&octets[..]),
        _ => None,
    };
    require_judged(number, heard, is_sound_box(block))
}

fn judge_with(face: &dyn Face, call: &BoxCall, lent: &BoxLent, filler: u8) -> Result<Left, String> {
    let mut memory = Memory {
        block: Guarded::new(&lent.block, lent.words, word(filler)),
        frames: Guarded::new(&[], lent.frames, filler),
        reply: Guarded::new(&[], lent.reply, word(filler)),
        made: Guarded::new(&[], lent.made, word(filler)),
    };
    let number = face.on_box(
        &call.with_behind(filler),
        BoxMemory {
            block: memory.block.lend(),
            frames: memory.frames.lend(),
            reply: memory.reply.lend(),
        },
        memory.made.lend(),
    );
    require_number(number, lent.is_short(call))?;
    match number {
        SHORT => memory.require_untouched()?,
        DONE => memory.require_told(call)?,
        _ => memory.require_refused(call)?,
    }
    let made = require_made(&memory.made, call.ticks(), number)?;
    Ok(Left {
        made,
        ..memory.left(number, &lent.block)
    })
}

impl Memory {
    fn require_untouched(&self) -> Result<(), String> {
        let kept = self.block.is_kept() && self.frames.is_kept() && self.reply.is_kept();
        require(kept, "too little was lent, and something was touched")
    }

    fn require_behind(&self, frames: usize, notices: usize) -> Result<(), String> {
        let behind = self.block.is_kept_from(BOX_WORDS)
            && self.reply.is_kept_from(NOTICES + NOTICE * notices)
            && self.frames.is_kept_from(FRAME_OCTETS * frames);
        require(behind, "what lies behind the part that is used was touched")
    }

    /// A refusal tells nothing and changes nothing; a fresh box is then one of
    /// zeros.
    fn require_refused(&self, call: &BoxCall) -> Result<(), String> {
        self.require_behind(0, 0)?;
        let told = self.reply.now()[..NOTICES] != [0; NOTICES];
        require(!told, "a refusal told something")?;
        match call {
            BoxCall::Fresh(_) => require(
                self.block.now()[..BOX_WORDS] == [0; BOX_WORDS],
                "a refused fresh box isn't zeros",
            ),
            _ => require(self.block.is_kept(), "a refusal changed the box"),
        }
    }

    fn require_told(&self, call: &BoxCall) -> Result<(), String> {
        let reply = self.reply.now();
        require(reply[FRAMES] <= 2, "more than two frames")?;
        let few = reply[NUMBER] <= MOST_NOTICES;
        require(few, "more than four notices")?;
        let told = reply[NUMBER] as usize;
        self.require_behind(reply[FRAMES] as usize, told)?;
        let heard = matches!(call, BoxCall::Hear(..));
        require(heard || reply[DRIFT] == 0, "a drift without a message")?;
        let distance = i32::try_from(reply[DRIFT] as i64).is_ok();
        require(distance, "a drift that is no distance")?;
        for notice in reply[NOTICES..].chunks_exact(NOTICE).take(told) {
            let grant = notice[0] == GRANT && notice[3] <= 1;
            let blank = grant || notice[1..] == [0; 3];
            let known = (1..=LAST_KIND).contains(&notice[0]);
            require(known && blank, "a notice that is none")?;
        }
        Ok(())
    }

    fn left(&self, number: u8, block: &[u64]) -> Left {
        if number == SHORT {
            return Left {
                number,
                block: block.to_vec(),
                ..Left::default()
            };
        }
        let reply = self.reply.now();
        let told = NOTICES + NOTICE * reply[NUMBER] as usize;
        Left {
            number,
            block: self.block.now()[..BOX_WORDS].to_vec(),
            links: Vec::new(),
            reply: reply[..told].to_vec(),
            frames: self.frames.now()[..FRAME_OCTETS * reply[FRAMES] as usize].to_vec(),
            made: 0,
        }
    }
}

/// Asks how long a box is silent and holds the answer against the header.
pub fn judge_box_until(face: &dyn Face, lent: &BoxLent) -> Result<Left, String> {
    both(|filler| {
        let mut block = Guarded::new(&lent.block, lent.words, word(filler));
        let until = face.box_ticks_until(block.lend());
        require(
            block.is_kept(),
            "asking how long it is silent changed a box",
        )?;
        let right = match told(&lent.block) {
            Told::State(state) if lent.words >= BOX_WORDS => state.ticks_until(),
            _ => 0,
        };
        require(
            until == u64::from(right),
            "a box is silent for another time",
        )?;
        Ok(Left {
            made: until,
            ..Left::default()
        })
    })
}

/// Asks for the next frame to send and holds the answer against the header.
pub fn judge_next(
    face: &dyn Face,
    lent: &BoxLent,
    control: usize,
    data: usize,
) -> Result<Left, String> {
    both(|filler| {
        let mut block = Guarded::new(&lent.block, lent.words, word(filler));
        let (control, data) = (vec![filler; control], vec![filler; data]);
        let number = face.next_to_send(block.lend(), &control, &data);
        let short = lent.words < BOX_WORDS;
        require(block.is_kept(), "asking for the next frame changed the box")?;
        require(
            number <= 2 && !short || number == SHORT && short,
            "the next frame is none of three",
        )?;
        if !short {
            let right = next_of(&lent.block, control.len(), data.len());
            require(number == right, "another frame is next")?;
        }
        Ok(Left {
            number,
            ..Left::default()
        })
    })
}

/// Which frame is next: of words that are no state's none.
fn next_of(block: &[u64], control: usize, data: usize) -> u8 {
    let (Told::State(state) | Told::Unlisted(state)) = told(block) else {
        return 0;
    };
    match state.next(control, data) {
        Next::Nothing => 0,
        Next::Control => 1,
        Next::Data => 2,
    }
}
