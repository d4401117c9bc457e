//! What an implementation of head and box looks like to the tools.
//!
//! Replay, night and the checks speak to a [`Core`] and so can be pointed at
//! any implementation. States, messages and notices are the plain structs of
//! the `plain` library; a core with its own layout converts at this border.

mod plain_core;
mod proved_core;

use plain::{
    Address, BoxNotice, Few, FloorBox, Frame, GateRequest, Head, HeadNotice, Link, Message,
    Newcomer, Next, OpenWindow,
};

pub use plain_core::PlainCore;
pub use proved_core::ProvedCore;

/// An implementation: reader, writer, and as many heads and boxes as wanted.
pub trait Core {
    /// Reads a frame, or tells the reply number.
    fn read(&self, frame: &[u8]) -> Result<Message, u8>;
    /// Writes a message: reply number, and the octets (all zero on refusal).
    fn write(&self, message: &Message) -> (u8, Frame);
    /// A head that holds address zero, with no links and no output lent.
    fn head(&self) -> Box<dyn HeadCore>;
    /// A box that holds address zero.
    fn floor_box(&self) -> Box<dyn BoxCore>;
}

/// A head together with its lent table and output.
pub trait HeadCore {
    /// Lends a table of so many links; those that it had stay as they were,
    /// new ones are idle.
    fn lend_links(&mut self, links: usize);
    /// Lends this output to every later call.
    fn lend_output(&mut self, output: Vec<u8>);
    /// Makes a fresh head over the lent table, in place of the one that was
    /// there; refused it holds address zero.
    fn fresh(&mut self, address: Address) -> HeadReply;
    /// Opens a discovery window.
    fn open_window(&mut self, request: &OpenWindow) -> HeadReply;
    /// Admits a newcomer.
    fn admit(&mut self, newcomer: &Newcomer) -> HeadReply;
    /// Rejects a newcomer.
    fn reject(&mut self, newcomer: &Newcomer) -> HeadReply;
    /// Has a box register again.
    fn reregister(&mut self, link: u64, sync: u32) -> HeadReply;
    /// Drops a box.
    fn deregister(&mut self, link: u64) -> HeadReply;
    /// Sends a GATE.
    fn gate(&mut self, request: &GateRequest) -> HeadReply;
    /// A frame arrives on a link: reads it, then hears its message.
    fn hear(&mut self, link: u64, frame: &[u8]) -> HeadReply;
    /// One quantum passes.
    fn tick(&mut self) -> HeadReply;
    /// So many quanta pass, 1 to 65,536, up to the first tick that hands
    /// something out.
    fn advance(&mut self, ticks: u64) -> Advanced<HeadReply>;
    /// How many ticks from now are surely done and hand out nothing, up to
    /// 65,536; if fewer, the next one hands out a frame.
    fn ticks_until(&self) -> u64;
    /// The head's own state.
    fn state(&self) -> Head;
    /// Sets the head's own state.
    fn set_state(&mut self, state: &Head);
    /// Number of links in the table.
    fn links(&self) -> usize;
    /// The link at a place, from 0 and below [`HeadCore::links`].
    fn link(&self, place: usize) -> Link;
    /// Sets the link at a place, from 0 and below [`HeadCore::links`].
    fn set_link(&mut self, place: usize, link: &Link);
    /// The lent output.
    fn output(&self) -> &[u8];
}

/// A box.
pub trait BoxCore {
    /// Makes a fresh box; refused it holds address zero.
    fn fresh(&mut self, address: Address) -> BoxReply;
    /// The client asks to register.
    fn register(&mut self) -> BoxReply;
    /// The client asks to deregister.
    fn deregister(&mut self) -> BoxReply;
    /// The client asks for a REPORT of so many queue sets, which are handed in
    /// as they stand in a frame.
    fn report(&mut self, number: u8, sets: &[u8]) -> BoxReply;
    /// A frame arrives: reads it, then hears its message.
    fn hear(&mut self, frame: &[u8], random: u32) -> BoxReply;
    /// One quantum passes.
    fn tick(&mut self) -> BoxReply;
    /// So many quanta pass, 1 to 65,536, up to the first tick that hands
    /// something out, and no further than a tick that would be refused.
    fn advance(&mut self, ticks: u64) -> Advanced<BoxReply>;
    /// How many ticks from now are surely done and hand out nothing, up to
    /// 65,536; the next one may be silent as well.
    fn ticks_until(&self) -> u64;
    /// Which of two frames of these many octets goes next.
    fn next(&self, control: usize, data: usize) -> Next;
    /// The box's state.
    fn state(&self) -> FloorBox;
    /// Sets the box's state.
    fn set_state(&mut self, state: &FloorBox);
}

/// What a call of a head answers. It has room for what a refusal must not
/// hand out, so that a core that does so is found out.
#[derive(Clone, Copy, Debug, Default, PartialEq, Eq)]
pub struct HeadReply {
    /// Reply number, 0 to 14.
    pub number: u8,
    /// Frames packed from the output's start.
    pub frames: usize,
    /// Notice for the client.
    pub notice: Option<HeadNotice>,
}

/// What a call of a box answers.
#[derive(Clone, Copy, Debug, Default, PartialEq, Eq)]
pub struct BoxReply {
    /// Reply number, 0 to 14.
    pub number: u8,
    /// The drift.
    pub drift: i32,
    /// Frames in order.
    pub frames: Few<Frame, 2>,
    /// Notices in order.
    pub notices: Few<BoxNotice, 4>,
}

/// What an advance answers: the reply of the last tick made, and how many were
/// made, 0 on a refusal.
#[derive(Clone, Copy, Debug, Default, PartialEq, Eq)]
pub struct Advanced<R> {
    /// The last tick's reply.
    pub reply: R,
    /// Ticks made.
    pub made: u64,
}

impl HeadReply {
    /// A refusal: its number and nothing else.
    pub fn refused(number: u8) -> HeadReply {
        HeadReply {
            number,
            ..HeadReply::default()
        }
    }

    /// Whether there is nothing to tell of it.
    pub fn is_quiet(&self) -> bool {
        self.number == 0 && self.frames == 0 && self.notice.is_none()
    }
}

impl BoxReply {
    /// A refusal: its number and nothing else.
    pub fn refused(number: u8) -> BoxReply {
        BoxReply {
            number,
            ..BoxReply::default()
        }
    }

    /// Whether there is nothing to tell of it.
    pub fn is_quiet(&self) -> bool {
        self.number == 0 && self.frames.is_empty() && self.notices.is_empty()
    }
}
