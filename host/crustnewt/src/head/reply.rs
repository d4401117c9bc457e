//! What a call of the head tells.

use crate::message::Frame;
use crate::queue_sets::{QueueSets, SETS_WORDS};
use crate::sys::HEAD_REPLY_WORDS;
use crate::word::{fit, sure};
use core::fmt;

/// What a call of the head that was done tells. It borrows from the head.
#[derive(Clone, Copy)]
pub struct HeadReply<'a> {
    words: &'a [u64; HEAD_REPLY_WORDS],
    output: &'a [Frame],
}

/// What the head tells its client.
#[derive(Clone, Copy, Debug, PartialEq, Eq)]
pub struct HeadNotice {
    /// What was heard.
    pub kind: HeadNoticeKind,
    /// Link number, 0 of a request.
    pub link: usize,
    /// Round trip of the message, in quanta.
    pub trip: u32,
    /// The queue sets of a report, none of others.
    pub sets: QueueSets,
}

/// Kinds of the head's notices.
#[derive(Clone, Copy, Debug, PartialEq, Eq)]
pub enum HeadNoticeKind {
    /// A box asks to register. The frame's source and pending grants are for
    /// [`admit`](crate::Head::admit) or [`reject`](crate::Head::reject).
    Request,
    /// A box is registered.
    Registered,
    /// A box said that it leaves, or won't join, and was dropped.
    Dropped,
    /// A report was heard, with its queue sets.
    Report,
}

impl<'a> HeadReply<'a> {
    /// What a call of [`crate::sys`] told in this memory.
    ///
    /// Words that no call leaves end in a panic when they are asked for.
    #[inline]
    pub fn of(words: &'a [u64; HEAD_REPLY_WORDS], output: &'a [Frame]) -> HeadReply<'a> {
        HeadReply { words, output }
    }

    /// The frames to send, in order, as they stand in the head's output.
    #[inline]
    pub fn frames(&self) -> &'a [Frame] {
        let number = fit(self.words[0]);
        sure(number.and_then(|number: usize| self.output.get(..number)))
    }

    /// What the head has for its client.
    #[inline]
    pub fn notice(&self) -> Option<HeadNotice> {
        let [_, number, kind, link, trip, sets @ ..] = *self.words;
        sure(match number {
            0 => Some(None),
            1 => HeadNotice::of_words(kind, link, trip, sets).map(Some),
            _ => None,
        })
    }
}

/// Two replies are equal if they tell the same.
impl PartialEq for HeadReply<'_> {
    fn eq(&self, other: &HeadReply<'_>) -> bool {
        self.frames() == other.frames() && self.notice() == other.notice()
    }
}

impl Eq for HeadReply<'_> {}

impl fmt::Debug for HeadReply<'_> {
    fn fmt(&self, f: &mut fmt::Formatter<'_>) -> fmt::Result {
        f.debug_struct("HeadReply")
            .field("frames", &self.frames())
            .field("notice", &self.notice())
            .finish()
    }
}

impl HeadNotice {
    fn of_words(kind: u64, link: u64, trip: u64, sets: [u64; SETS_WORDS]) -> Option<HeadNotice> {
        Some(HeadNotice {
            kind: match kind {
                1 => HeadNoticeKind::Request,
                2 => HeadNoticeKind::Registered,
                3 => HeadNoticeKind::Dropped,
                4 => HeadNoticeKind::Report,
                _ => return None,
            },
            link: fit(link)?,
            trip: fit(trip)?,
            sets: QueueSets::of_words(sets),
        })
    }
}
