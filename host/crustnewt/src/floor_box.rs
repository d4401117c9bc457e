//! The floor box (ONU).

mod parts;
mod reply;

use crate::advanced::Advanced;
use crate::message::Frame;
use crate::queue_sets::QueueSets;
use crate::refusal::Refusal;
use crate::sys::{self, BoxMemory, BOX_REPLY_WORDS, BOX_WORDS, FRAME_OCTETS};
use crate::word::sure;
use core::fmt;

pub use parts::{BoxParts, BoxState, Light};
pub use reply::{BoxNotice, BoxReply};

/// A floor box. It owns its block, and the memory that its calls tell their
/// replies in.
///
/// Two boxes are equal, and a clone is one, by their blocks alone.
pub struct FloorBox {
    /// A sound box's.
    words: [u64; BOX_WORDS],
    reply: [u64; BOX_REPLY_WORDS],
    frames: [Frame; 2],
}

/// Which of the waiting frames goes next.
#[derive(Clone, Copy, Debug, PartialEq, Eq)]
pub enum Next<'a> {
    /// The control frame.
    Control(&'a [u8]),
    /// The data frame.
    Data(&'a [u8]),
    /// Neither.
    Neither,
}

impl FloorBox {
    /// A box that has not begun: count 0, WAIT, dark, no grants.
    ///
    /// [`Refusal::Range`] for an address that is zero, a group's or above 48
    /// bits.
    pub fn fresh(address: u64) -> Result<FloorBox, Refusal> {
        let mut made = FloorBox::over([0; BOX_WORDS]);
        made.call(|memory| sys::box_fresh(address, memory))?;
        Ok(made)
    }

    /// A box that was stored, by its parts; [`Refusal::Unsound`] where they are
    /// no sound box's.
    pub fn restored(parts: &BoxParts) -> Result<FloorBox, Refusal> {
        FloorBox::from_words(parts.words())
    }

    /// A box that was stored, by its words; [`Refusal::Unsound`] where they are
    /// no sound box's.
    pub fn from_words(words: [u64; BOX_WORDS]) -> Result<FloorBox, Refusal> {
        let mut made = FloorBox::over(words);
        // Every call judges soundness first; these change nothing, since a
        // sound box refuses them in these states.
        let judged = match words[parts::STATE] {
            0 => made.deregister(),
            _ => made.register(),
        };
        match judged {
            Err(Refusal::Unsound) => Err(Refusal::Unsound),
            _ => Ok(made),
        }
    }

    fn over(words: [u64; BOX_WORDS]) -> FloorBox {
        FloorBox {
            words,
            reply: [0; BOX_REPLY_WORDS],
            frames: [[0; FRAME_OCTETS]; 2],
        }
    }

    /// The client asks to register: [`Refusal::State`] unless the box is in
    /// WAIT.
    #[inline]
    pub fn register(&mut self) -> Result<BoxReply<'_>, Refusal> {
        self.call(sys::box_register)
    }

    /// The client asks to deregister: [`Refusal::State`] unless the box is
    /// REGISTERED.
    #[inline]
    pub fn deregister(&mut self) -> Result<BoxReply<'_>, Refusal> {
        self.call(sys::box_deregister)
    }

    /// The client asks for a REPORT of so many queue sets, given by their octets
    /// as they stand in a frame behind the number. Its timer for the next REPORT
    /// begins anew.
    ///
    /// [`Refusal::State`] unless the box is REGISTERED; [`Refusal::Range`] unless
    /// these are exactly so many sets, and 39 octets at most.
    #[inline]
    pub fn report(&mut self, number: u8, sets: &[u8]) -> Result<BoxReply<'_>, Refusal> {
        self.call(|memory| sys::box_report(number, sets, memory))
    }

    /// The same, of sets that were made before.
    #[inline]
    pub fn report_sets(&mut self, sets: &QueueSets) -> Result<BoxReply<'_>, Refusal> {
        let (number, octets) = sets.parts();
        self.report(number, octets)
    }

    /// A frame came. `random` is any random number; it sets the random wait of
    /// a discovery GATE.
    #[inline]
    pub fn hear(&mut self, octets: &[u8], random: u32) -> Result<BoxReply<'_>, Refusal> {
        self.call(|memory| sys::box_hear(octets, random, memory))
    }

    /// One quantum has passed.
    #[inline]
    pub fn tick(&mut self) -> Result<BoxReply<'_>, Refusal> {
        self.call(sys::box_tick)
    }

    /// So many quanta have passed, 1 to 65,536: that many single ticks, but none
    /// behind one that hands out a frame or a notice, and none that would be
    /// refused.
    ///
    /// The reply is the last tick's. [`Refusal::Grant`] for another
    /// number; after a refusal no tick was made.
    ///
    /// ```
    /// # fn main() -> Result<(), crustnewt::Refusal> {
    /// let mut floor_box = crustnewt::FloorBox::fresh(0x0200_0000_0031)?;
    /// // A millisecond has passed.
    /// let mut left = 62_500;
    /// while left > 0 {
    ///     let advanced = floor_box.advance(left)?;
    ///     for frame in advanced.reply.frames() {
    ///         // It waits to be sent.
    ///         # let _ = frame;
    ///     }
    ///     left -= advanced.made;
    /// }
    /// assert_eq!(floor_box.count(), 62_500);
    /// # Ok(())
    /// # }
    /// ```
    #[inline]
    pub fn advance(&mut self, ticks: u64) -> Result<Advanced<BoxReply<'_>>, Refusal> {
        let mut made = [0];
        let reply = self.call(|memory| sys::box_advance(ticks, memory, &mut made))?;
        let [made] = made;
        Ok(Advanced { reply, made })
    }

    /// How many ticks from now are sure to be done and to hand out nothing, up
    /// to 65,536: none where one of its grants is chosen at the next tick, else
    /// those before the next timer ends, which may be as silent.
    #[inline]
    pub fn ticks_until(&self) -> u64 {
        sys::box_ticks_until(&self.words)
    }

    /// The frame to send now, of a waiting control frame and a waiting data
    /// frame; an empty one says that none waits.
    #[inline]
    pub fn next_to_send<'a>(&self, control: &'a [u8], data: &'a [u8]) -> Next<'a> {
        sure(match sys::box_next_to_send(&self.words, control, data) {
            0 => Some(Next::Neither),
            1 => Some(Next::Control(control)),
            2 => Some(Next::Data(data)),
            _ => None,
        })
    }

    /// State of its Discovery process.
    #[inline]
    pub fn state(&self) -> BoxState {
        sure(BoxState::of_word(self.words[parts::STATE]))
    }

    /// Its counter.
    #[inline]
    pub fn count(&self) -> u32 {
        self.words[parts::COUNT] as u32
    }

    /// Everything that it holds.
    pub fn parts(&self) -> BoxParts {
        sure(BoxParts::of_words(&self.words))
    }

    /// Its block, to store it. As octets of memory it is in the machine's order.
    #[inline]
    pub fn words(&self) -> &[u64; BOX_WORDS] {
        &self.words
    }

    #[inline]
    fn call(&mut self, call: impl FnOnce(BoxMemory<'_>) -> u8) -> Result<BoxReply<'_>, Refusal> {
        Refusal::judge(call(BoxMemory {
            block: &mut self.words,
            frames: self.frames.as_flattened_mut(),
            reply: &mut self.reply,
        }))?;
        Ok(BoxReply::of(&self.reply, &self.frames))
    }
}

impl Clone for FloorBox {
    fn clone(&self) -> FloorBox {
        FloorBox::over(self.words)
    }

    fn clone_from(&mut self, other: &FloorBox) {
        self.words = other.words;
    }
}

impl PartialEq for FloorBox {
    fn eq(&self, other: &FloorBox) -> bool {
        self.words == other.words
    }
}

impl Eq for FloorBox {}

impl fmt::Debug for FloorBox {
    fn fmt(&self, f: &mut fmt::Formatter<'_>) -> fmt::Result {
        self.parts().fmt(f)
    }
}
