//! Registration of floor boxes with their head, proved: the library for Rust,
//! over its C face.
//!
//! [`Head`] and [`FloorBox`] own their words, and each of their calls is a
//! call of the library: it answers a reply, which borrows from them, or a
//! [`Refusal`] that has changed nothing. Every input is allowed; nothing of
//! theirs can be called wrongly.
//!
//! ```
//! use crustnewt::{ArrayTable, BoxState, FloorBox, Grant, Head, OpenWindow};
//!
//! # fn main() -> Result<(), crustnewt::Refusal> {
//! let mut head = Head::fresh(0x0200_0000_0001, ArrayTable::<8>::new())?;
//! let mut floor_box = FloorBox::fresh(0x0200_0000_0031)?;
//! floor_box.register()?;
//!
//! // The head calls for newcomers, and the box hears it.
//! let grant = Grant { start: 100, length: 174 };
//! let sent = head.open_window(&OpenWindow { grant, sync: 0, window: 400 })?;
//! floor_box.hear(&sent.frames()[0], 250)?;
//!
//! // 100 to the start, 43 of random wait, 32 for the laser: then the box asks,
//! // and goes no further until that is seen to.
//! let advanced = floor_box.advance(1000)?;
//! assert_eq!(advanced.made, 175);
//! head.advance(175)?;
//! head.hear(0, &advanced.reply.frames()[0])?;
//! assert_eq!(floor_box.state(), BoxState::Requesting);
//! # Ok(())
//! # }
//! ```
//!
//! # What is left to you
//!
//! - **Register again.** After [`BoxNotice::Deregistered`] and
//!   [`BoxNotice::Refused`] a box is in WAIT until [`FloorBox::register`]. After
//!   [`BoxNotice::Retry`] it tries again by itself.
//! - **Empty the queue** at each of these three notices: throw away all control
//!   frames that wait to be sent, with those of that very reply. The next
//!   discovery window has room for a new REGISTER_REQ alone, and an old one
//!   tells the head a wrong round trip.
//! - **Send in time.** That window is as long as that frame, so ask
//!   [`FloorBox::next_to_send`] in the quantum in which it is handed out. What
//!   has waited for 3,125,000 quanta is too old: throw it away.
//! - **Tell of queues.** The REPORTs that a box hands out by itself have no
//!   queue sets, and a grant's force bit sends nothing: it stands in
//!   [`BoxNotice::Grant`] and asks you for [`FloorBox::report`].
//! - **Name the link** on which the head hears a frame; [`Head::hear`] says
//!   which that is.
//! - **Tell both ends of every quantum**, but not in every quantum: a call takes
//!   longer than 16 ns. [`FloorBox::advance`] and [`Head::advance`] make the
//!   ticks that have passed, and `ticks_until` says how long you may sleep.
//!
//! A call takes some six thousand octets of stack; `CRUSTNEWT_BOX_STACK_OCTETS`
//! and `CRUSTNEWT_HEAD_STACK_OCTETS` of `include/crustnewt.h` have it. The
//! archive behind the crate is for x86-64 only, for now.
//!
//! # Features
//!
//! It depends on no other crate, and on `core` alone. The feature `std` adds
//! `VecTable`, a table of a size that is known only when the program runs.
//!
//! [`sys`] has the C face itself, as functions over slices of any length.

#![no_std]

#[cfg(feature = "std")]
extern crate std;

mod advanced;
mod floor_box;
mod head;
mod message;
mod queue_sets;
mod refusal;
pub mod sys;
mod up_to;
mod word;

pub use advanced::Advanced;
pub use floor_box::{BoxNotice, BoxParts, BoxReply, BoxState, FloorBox, Light, Next};
#[cfg(feature = "std")]
pub use head::VecTable;
pub use head::{
    ArrayTable, Head, HeadNotice, HeadNoticeKind, HeadParts, HeadReply, Link, LinkState,
    OpenWindow, Table, Window,
};
pub use message::{AckFlag, Body, Frame, Grant, Granted, Message, RegisterFlag, RequestFlag};
pub use queue_sets::{QueueSet, QueueSets};
pub use refusal::Refusal;
pub use up_to::UpTo;
