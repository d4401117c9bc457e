//! Calls of the head.

use super::advances::{self, require_answer, require_counted, require_made};
use super::frames::require_sources;
use super::reports::require_told;
use super::states::{head_of, is_sound_head};
use super::{
    both, require, require_judged, require_number, word, Left, DONE, OUTPUT, RANGE, SHORT, UNSOUND,
};
use crate::call::{Face, HeadCall};
use crate::guarded::Guarded;
use crustnewt::sys::{
    HeadMemory, FRAME_OCTETS, HEAD_REPLY_WORDS, HEAD_WORDS, LINK_WORDS, MADE_WORDS, MOST_LINKS,
};
use plain::Address;

/// A head and its table, and how much is lent: words, words, octets, words,
/// words.
#[derive(Clone, Debug, PartialEq, Eq)]
pub struct HeadLent {
    /// The head's block.
    pub head: Vec<u64>,
    /// The table.
    pub links: Vec<u64>,
    /// Words of the block.
    pub words: usize,
    /// Words of the table.
    pub links_words: usize,
    /// Octets of the output.
    pub output: usize,
    /// Words for the reply.
    pub reply: usize,
    /// Words for the ticks made.
    pub made: usize,
}

impl HeadLent {
    /// This head and table, with as much lent as is needed.
    pub fn enough(head: &[u64], links: &[u64]) -> HeadLent {
        HeadLent {
            head: head.to_vec(),
            links: links.to_vec(),
            words: HEAD_WORDS,
            links_words: links.len(),
            output: FRAME_OCTETS * (links.len() / LINK_WORDS),
            reply: HEAD_REPLY_WORDS,
            made: MADE_WORDS,
        }
    }

    fn is_short(&self, call: &HeadCall) -> bool {
        self.words < HEAD_WORDS
            || self.reply < HEAD_REPLY_WORDS
            || advances::is_short(call.ticks(), self.made)
    }

    fn number_of_links(&self) -> usize {
        self.links_words / LINK_WORDS
    }
}

/// The memory of a call, with its guards.
struct Memory {
    head: Guarded<u64>,
    links: Guarded<u64>,
    output: Guarded<u8>,
    reply: Guarded<u64>,
    made: Guarded<u64>,
}

const FRAMES: usize = 0;
/// How many notices.
const NUMBER: usize = 1;
const NOTICE: usize = 2;
const NOTICE_WORDS: usize = HEAD_REPLY_WORDS - NOTICE;
const LAST_KIND: u64 = 4;

/// Makes a call of a head and holds it against the header.
pub fn judge_head(face: &dyn Face, call: &HeadCall, lent: &HeadLent) -> Result<Left, String> {
    let left = both(|filler| judge_with(face, call, lent, filler))?;
    if left.number == DONE {
        let sound = is_sound_head(&left.block, &left.links);
        require(sound, "a call left an unsound head")?;
        require_sources(&left.frames)?;
        if let Some(asked) = call.ticks() {
            require_counted(&lent.head, &left.block, left.made)?;
            let stopped = left.made == asked || !left.frames.is_empty();
            require(stopped, "an advance stopped early")?;
        }
    }
    if left.number != SHORT {
        require_state(left.number, call, lent)?;
    }
    Ok(left)
}

fn judge_with(
    face: &dyn Face,
    call: &HeadCall,
    lent: &HeadLent,
    filler: u8,
) -> Result<Left, String> {
    let mut memory = Memory {
        head: Guarded::new(&lent.head, lent.words, word(filler)),
        links: Guarded::new(&lent.links, lent.links_words, word(filler)),
        output: Guarded::new(&[], lent.output, filler),
        reply: Guarded::new(&[], lent.reply, word(filler)),
        made: Guarded::new(&[], lent.made, word(filler)),
    };
    let number = face.on_head(
        call,
        HeadMemory {
            head: memory.head.lend(),
            links: memory.links.lend(),
            output: memory.output.lend(),
            reply: memory.reply.lend(),
        },
        memory.made.lend(),
    );
    require_number(number, lent.is_short(call))?;
    let links = lent.number_of_links();
    match number {
        SHORT => memory.require_untouched()?,
        DONE => memory.require_told(call, links)?,
        _ => memory.require_refused(call, number)?,
    }
    let made = require_made(&memory.made, call.ticks(), number)?;
    Ok(Left {
        made,
        ..memory.left(number, lent)
    })
}

/// The number rests on the words that were handed in and on how much was lent,
/// and a fresh head's on its address and table.
fn require_state(number: u8, call: &HeadCall, lent: &HeadLent) -> Result<(), String> {
    let links = lent.number_of_links();
    let allowed = (1..=MOST_LINKS).contains(&links);
    let heard = match call {
        HeadCall::Fresh(address) => {
            let right = match Address(*address).is_individual() {
                _ if !allowed => UNSOUND,
                false => RANGE,
                true => DONE,
            };
            return require(number == right, "a fresh head is answered wrong");
        }
        HeadCall::Hear(_, octets) => Some(&octets[..]),
        _ => None,
    };
    let enough = lent.output >= FRAME_OCTETS * links;
    require(enough || number != DONE, "a short output was served")?;
    let sound = allowed && is_sound_head(&lent.head, &lent.links);
    if let Some(asked) = call.ticks() {
        let ahead = match (sound, enough) {
            (false, _) => Some(UNSOUND),
            (true, false) => Some(OUTPUT),
            (true, true) => None,
        };
        return require_answer(number, asked, ahead, None);
    }
    require_judged(number, heard, sound)
}

impl Memory {
    fn require_untouched(&self) -> Result<(), String> {
        let kept = self.head.is_kept()
            && self.links.is_kept()
            && self.output.is_kept()
            && self.reply.is_kept();
        require(kept, "too little was lent, and something was touched")
    }

    fn require_behind(&self, links: usize, frames: usize, notices: usize) -> Result<(), String> {
        let told = NOTICE + NOTICE_WORDS * notices;
        let behind = self.head.is_kept_from(HEAD_WORDS)
            && self.links.is_kept_from(LINK_WORDS * links)
            && self.output.is_kept_from(FRAME_OCTETS * frames)
            && self.reply.is_kept_from(told);
        require(behind, "what lies behind the part that is used was touched")
    }

    /// A refusal tells nothing and changes nothing; a fresh head of no party's
    /// address is then one of zeros.
    fn require_refused(&self, call: &HeadCall, number: u8) -> Result<(), String> {
        self.require_behind(0, 0, 0)?;
        let told = self.reply.now()[..NOTICE] != [0; NOTICE];
        require(!told, "a refusal told something")?;
        match call {
            HeadCall::Fresh(_) if number == RANGE => require(
                self.head.now()[..HEAD_WORDS] == [0; HEAD_WORDS],
                "a refused fresh head isn't zeros",
            ),
            _ => require(self.head.is_kept(), "a refusal changed the head"),
        }
    }

    fn require_told(&self, call: &HeadCall, links: usize) -> Result<(), String> {
        let reply: [u64; HEAD_REPLY_WORDS] = self.reply.now()[..HEAD_REPLY_WORDS]
            .try_into()
            .map_err(|_| "no reply")?;
        let [frames, number, kind, link, trip, sets @ ..] = reply;
        let ticks = *call == HeadCall::Tick || call.ticks().is_some();
        let most = if ticks { links } else { 1 };
        require(frames <= most as u64, "more frames than the call can have")?;
        let heard = match call {
            HeadCall::Hear(_, octets) => Some(octets).filter(|_| number == 1),
            _ => None,
        };
        let told = u64::from(heard.is_some());
        require(number == told, "more notices than the call can have")?;
        self.require_behind(links, frames as usize, number as usize)?;
        if let Some(octets) = heard {
            require_told(kind, &sets, octets)?;
        }
        let known =
            (1..=LAST_KIND).contains(&kind) && link <= links as u64 && trip <= u64::from(u32::MAX);
        require(number == 0 || known, "a notice that is none")
    }

    fn left(&self, number: u8, lent: &HeadLent) -> Left {
        let (head, links) = (lent.head.clone(), lent.links.clone());
        if number == SHORT {
            return Left {
                number,
                block: head,
                links,
                ..Left::default()
            };
        }
        let reply = self.reply.now();
        Left {
            number,
            block: self.head.now()[..HEAD_WORDS].to_vec(),
            links: self.links.now()[..LINK_WORDS * lent.number_of_links()].to_vec(),
            reply: reply[..NOTICE + NOTICE_WORDS * reply[NUMBER] as usize].to_vec(),
            frames: self.output.now()[..FRAME_OCTETS * reply[FRAMES] as usize].to_vec(),
            made: 0,
        }
    }
}

/// Asks how long a head is silent and holds the answer against the header.
pub fn judge_head_until(face: &dyn Face, lent: &HeadLent) -> Result<Left, String> {
    both(|filler| {
        let mut head = Guarded::new(&lent.head, lent.words, word(filler));
        let mut links = Guarded::new(&lent.links, lent.links_words, word(filler));
        let until = face.head_ticks_until(head.lend(), links.lend());
        let kept = head.is_kept() && links.is_kept();
        require(kept, "asking how long it is silent changed a head")?;
        let right = match head_of(&lent.head, &lent.links) {
            Some((head, links)) if lent.words >= HEAD_WORDS => head.ticks_until(&links),
            _ => 0,
        };
        let right = until == u64::from(right);
        require(right, "a head is silent for another time")?;
        Ok(Left {
            made: until,
            ..Left::default()
        })
    })
}
