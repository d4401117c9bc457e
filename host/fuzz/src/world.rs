//! A box and a head that are handed one another's frames and much else, with
//! their words spoiled now and then.

use crate::call::{BoxCall, Face, HeadCall};
use crate::inputs::{
    address, any_box, any_links, frame, relight, sets, source, spoil, ticks, within, BOX, HEAD,
};
use crate::judge::{
    judge_box, judge_box_until, judge_head, judge_head_until, judge_next, judge_read, judge_write,
    BoxLent, HeadLent, Left,
};
use crustnewt::sys::{FRAME_OCTETS, HEAD_WORDS, LINK_WORDS, MESSAGE_WORDS};
use crustnewt_tool::dice::Dice;
use std::ops::Range;

/// Frames kept to be heard again.
const KEPT: usize = 16;
/// Of a thousand calls, so many are lent another length than is needed.
const OTHER_LENGTH: u64 = 60;
/// Of a thousand calls, so many find a word spoiled.
const SPOILED: u64 = 150;

/// Where a box, and the first link of a table, have timers among their words.
const BOX_TIMERS: Range<usize> = 3..10;
const LINK_TIMERS: Range<usize> = 2..5;

/// The world of one case.
pub struct World<'a> {
    face: &'a dyn Face,
    dice: Dice,
    block: Vec<u64>,
    head: Vec<u64>,
    links: Vec<u64>,
    frames: Vec<Vec<u8>>,
}

impl<'a> World<'a> {
    /// A box in any state, and a head that is fresh or holds it.
    pub fn new(face: &'a dyn Face, seed: u64) -> World<'a> {
        let mut dice = Dice::new(seed);
        let links = dice.pick(&[1, 1, 2, 3, 8, 63, 64, 65, 0]);
        let block = any_box(&mut dice);
        let mut head = vec![0; HEAD_WORDS];
        head[0] = HEAD;
        let links = any_links(&mut dice, links, usual(links));
        World {
            face,
            dice,
            block,
            head,
            links,
            frames: Vec::new(),
        }
    }

    /// Makes one call; the number that it answered, or what is wrong with it.
    pub fn step(&mut self) -> Result<u8, String> {
        match self.dice.below(21) {
            0 => self.read(),
            1 => self.write(),
            2 => self.next(),
            3 => self.until(),
            4..=11 => self.on_box(),
            _ => self.on_head(),
        }
    }

    fn until(&mut self) -> Result<u8, String> {
        if self.dice.chance(500) {
            let lent = self.box_lent();
            told(judge_box_until(self.face, &lent), || {
                format!("ticks until, {lent:?}")
            })
        } else {
            let lent = self.head_lent();
            told(judge_head_until(self.face, &lent), || {
                format!("ticks until, {lent:?}")
            })
        }
    }

    fn read(&mut self) -> Result<u8, String> {
        let octets = frame(&mut self.dice, &self.frames);
        let words = self.length(MESSAGE_WORDS);
        told(judge_read(self.face, &octets, words), || {
            format!("read {octets:?} into {words} words")
        })
    }

    fn write(&mut self) -> Result<u8, String> {
        let octets = frame(&mut self.dice, &self.frames);
        let mut message = vec![0; MESSAGE_WORDS];
        self.face.read(&octets, &mut message);
        if self.dice.chance(300) {
            spoil(&mut self.dice, &mut message);
        }
        if self.dice.chance(300) {
            // Small words where a body has them: numbers, bits, flags.
            let place = 4 + self.dice.below(6) as usize;
            message[place] ^= 1 << self.dice.below(5);
        }
        if self.dice.chance(100) {
            message[1] = source(&mut self.dice);
        }
        let (words, octets) = (self.length(MESSAGE_WORDS), self.length(FRAME_OCTETS));
        told(judge_write(self.face, &message, words, octets), || {
            format!("write {words} of {message:?} into {octets} octets")
        })
    }

    fn next(&mut self) -> Result<u8, String> {
        let lent = self.box_lent();
        let [control, data] = [0; 2].map(|_| within(&mut self.dice, 60, 130));
        told(judge_next(self.face, &lent, control, data), || {
            format!("next to send of {control} and {data} octets, {lent:?}")
        })
    }

    fn on_box(&mut self) -> Result<u8, String> {
        let call = self.box_call();
        let lent = self.box_lent();
        let judged = judge_box(self.face, &call, &lent);
        if let Some(left) = done(&judged) {
            self.block.clone_from(&left.block);
            self.keep(&left.frames);
        }
        told(judged, || format!("{call:?}, {lent:?}"))
    }

    fn on_head(&mut self) -> Result<u8, String> {
        let call = self.head_call();
        let lent = self.head_lent();
        let judged = judge_head(self.face, &call, &lent);
        if let Some(left) = done(&judged) {
            self.head.clone_from(&left.block);
            self.links.clone_from(&left.links);
            self.keep(&left.frames);
        }
        told(judged, || format!("{call:?}, {lent:?}"))
    }

    /// Frames that may be heard later, the latest first to be forgotten.
    fn keep(&mut self, octets: &[u8]) {
        let frames = octets.chunks_exact(FRAME_OCTETS).map(<[u8]>::to_vec);
        self.frames.extend(frames);
        while self.frames.len() > KEPT {
            let at = self.dice.below(KEPT as u64) as usize;
            self.frames.swap_remove(at);
        }
    }

    /// The length needed, or sometimes another.
    fn length(&mut self, needed: usize) -> usize {
        match self.dice.chance(OTHER_LENGTH) {
            true => within(&mut self.dice, needed, needed + 4),
            false => needed,
        }
    }

    fn box_lent(&mut self) -> BoxLent {
        let mut enough = BoxLent::enough(&self.block);
        if self.dice.chance(SPOILED) {
            spoil(&mut self.dice, &mut enough.block);
        }
        if self.dice.chance(SPOILED) {
            relight(&mut self.dice, &mut enough.block);
        }
        BoxLent {
            words: self.length(enough.words),
            frames: self.length(enough.frames),
            reply: self.length(enough.reply),
            made: self.length(enough.made),
            ..enough
        }
    }

    fn head_lent(&mut self) -> HeadLent {
        let mut enough = HeadLent::enough(&self.head, &self.links);
        if self.dice.chance(SPOILED / 2) {
            spoil(&mut self.dice, &mut enough.head);
        }
        if self.dice.chance(SPOILED / 2) {
            spoil(&mut self.dice, &mut enough.links);
        }
        let behind = self.dice.below(LINK_WORDS as u64) as usize;
        HeadLent {
            words: self.length(enough.words),
            links_words: enough.links_words + behind,
            output: self.length(enough.output),
            reply: self.length(enough.reply),
            made: self.length(enough.made),
            ..enough
        }
    }

    fn box_call(&mut self) -> BoxCall {
        let dice = &mut self.dice;
        match dice.below(13) {
            0 if dice.chance(500) => BoxCall::Fresh(address(dice)),
            0 | 1 => BoxCall::Fresh(BOX),
            2 => BoxCall::Register,
            3 if dice.chance(300) => BoxCall::Deregister,
            3..=5 => BoxCall::Tick,
            6 | 7 => BoxCall::Advance(ticks(dice, &self.block[BOX_TIMERS])),
            8 => {
                let (number, sets) = sets(dice);
                let lent = sets.len();
                BoxCall::Report(number, sets, lent)
            }
            _ => BoxCall::Hear(frame(dice, &self.frames), dice.half()),
        }
    }

    fn head_call(&mut self) -> HeadCall {
        let links = self.links.len() / LINK_WORDS;
        let dice = &mut self.dice;
        let link = within(dice, usual(links), links + 2);
        let (sync, pending) = (dice.below(80) as u32, dice.half() as u8);
        match dice.below(14) {
            0 if dice.chance(500) => HeadCall::Fresh(address(dice)),
            0 => HeadCall::Fresh(HEAD),
            1 => HeadCall::Open(open(dice, &self.head)),
            2 => HeadCall::Admit(address(dice), pending, sync),
            3 => HeadCall::Reject(address(dice), pending, sync),
            4 => HeadCall::Reregister(link, sync),
            5 => HeadCall::Deregister(link),
            6 => {
                let grants = dice.below(6);
                let grants: Vec<u64> = (0..grants).map(|_| grant(dice)).collect();
                HeadCall::Gate(link, grants, dice.half() as u8 & 3)
            }
            7 | 8 => HeadCall::Tick,
            9 | 10 => {
                let first = self.links.get(LINK_TIMERS).unwrap_or_default();
                HeadCall::Advance(ticks(dice, first))
            }
            _ => HeadCall::Hear(link, frame(dice, &self.frames)),
        }
    }
}

/// The link of a table of so many that is asked for most.
fn usual(links: usize) -> usize {
    links.min(2)
}

/// A window, mostly one that can be opened at the head's count.
fn open(dice: &mut Dice, head: &[u64]) -> [u32; 4] {
    let mut asked = [head[1] as u32, 106, 0, 1].map(|least| {
        let more = dice.pick(&[0, 1, 100, 1000]);
        least.wrapping_add(dice.below(more + 1) as u32)
    });
    if dice.chance(100) {
        asked[dice.below(4) as usize] = dice.half();
    }
    asked
}

/// A grant, mostly of a length that the wire can hold.
fn grant(dice: &mut Dice) -> u64 {
    match dice.chance(900) {
        true => dice.word() & 0xFFFF_FFFF_0000_FFFF,
        false => dice.word(),
    }
}

/// What a call left, unless it was refused: a spoiled state that is refused
/// is forgotten.
fn done(judged: &Result<Left, String>) -> Option<&Left> {
    judged.as_ref().ok().filter(|left| left.number == 0)
}

fn told(judged: Result<Left, String>, asked: impl Fn() -> String) -> Result<u8, String> {
    let number = judged.map(|left| left.number);
    number.map_err(|broken| format!("{broken}: {}", asked()))
}
