//! What the header promises of every call, whatever it is handed.

mod advances;
mod frames;
mod messages;
mod on_box;
mod on_head;
mod reports;
mod states;

pub use frames::{judge_read, judge_write, SOURCE};
pub use on_box::{judge_box, judge_box_until, judge_next, BoxLent};
pub use on_head::{judge_head, judge_head_until, HeadLent};

use crustnewt::Refusal;

/// What a call left, once it was judged.
#[derive(Clone, Debug, Default, PartialEq, Eq)]
pub struct Left {
    /// The number that it answered.
    pub number: u8,
    /// The block of box or head.
    pub block: Vec<u64>,
    /// The head's table.
    pub links: Vec<u64>,
    /// The words that it told.
    pub reply: Vec<u64>,
    /// The octets of its frames.
    pub frames: Vec<u8>,
    /// The ticks that it says it made, or that it says are silent.
    pub made: u64,
}

/// Two fillers for memory that a call has no business to look at: each call
/// is made with both, and must answer the same.
const FILLERS: [u8; 2] = [0xEE, 0x11];

const DONE: u8 = 0;
const RANGE: u8 = Refusal::Range as u8;
const STATE: u8 = Refusal::State as u8;
const GRANT: u8 = Refusal::Grant as u8;
const OUTPUT: u8 = Refusal::Output as u8;
const WINDOW: u8 = Refusal::Window as u8;
const SHORT: u8 = Refusal::Short as u8;
const UNSOUND: u8 = Refusal::Unsound as u8;

fn require(holds: bool, broken: &str) -> Result<(), String> {
    if holds {
        Ok(())
    } else {
        Err(broken.to_owned())
    }
}

/// A filler as a word.
fn word(filler: u8) -> u64 {
    u64::from_ne_bytes([filler; 8])
}

/// The number is the card's, and 100 exactly where too little was lent.
fn require_number(number: u8, short: bool) -> Result<(), String> {
    let known = number == DONE || Refusal::of(number).is_some();
    require(known, "the number isn't of the card")?;
    let told = if short { "isn't" } else { "is" };
    require(
        (number == SHORT) == short,
        &format!("the answer {told} 100, for what was lent"),
    )
}

/// A call that judges a state answers 13 exactly where it isn't sound, unless
/// it is to hear what the reader refuses: that comes first.
fn require_judged(number: u8, heard: Option<&[u8]>, sound: bool) -> Result<(), String> {
    if let Some(Err(refusal)) = heard.map(plain::frame::read) {
        let read = number == refusal.number();
        return require(read, "the reader's refusal isn't answered first");
    }
    let told = if sound { "a sound" } else { "an unsound" };
    require(
        (number == UNSOUND) != sound,
        &format!("the answer is {number}, for {told} state"),
    )
}

/// What a call answers, with each filler: the same.
fn both(mut judged: impl FnMut(u8) -> Result<Left, String>) -> Result<Left, String> {
    let [first, second] = FILLERS.map(&mut judged);
    let (first, second) = (first?, second?);
    require(
        first == second,
        "the answer rests on memory behind what is used",
    )?;
    Ok(first)
}
