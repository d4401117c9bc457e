//! What a call of the box tells.

use crate::message::{Frame, Grant, Granted};
use crate::sys::{BOX_NOTICE_WORDS, BOX_REPLY_WORDS};
use crate::word::{bit, fit, sure};
use core::fmt;

/// What a call of the box that was done tells. It borrows from the box.
#[derive(Clone, Copy)]
pub struct BoxReply<'a> {
    words: &'a [u64; BOX_REPLY_WORDS],
    frames: &'a [Frame; 2],
}

/// What the box tells its client.
#[derive(Clone, Copy, Debug, PartialEq, Eq)]
pub enum BoxNotice {
    /// A discovery window is open, for the REGISTER_REQ of this reply.
    Window,
    /// The head has registered the box.
    Registered,
    /// The head has rejected the box, which is in WAIT.
    Refused,
    /// The wait for REGISTER ran out; the box tries again by itself.
    Retry,
    /// The box isn't registered any more, and is in WAIT.
    Deregistered,
    /// A grant was taken into the list.
    Grant(Granted),
    /// A normal grant's window opens.
    Open,
    /// A normal grant's window closes.
    Close,
}

const DRIFT: usize = 0;
const FRAMES: usize = 1;
/// How many notices.
const NUMBER: usize = 2;
const NOTICES: usize = 3;

impl<'a> BoxReply<'a> {
    /// What a call of [`crate::sys`] told in this memory.
    ///
    /// Words that no call leaves end in a panic when they are asked for.
    #[inline]
    pub fn of(words: &'a [u64; BOX_REPLY_WORDS], frames: &'a [Frame; 2]) -> BoxReply<'a> {
        BoxReply { words, frames }
    }

    /// How far a heard message's timestamp is from the box's count, else 0.
    #[inline]
    pub fn drift(&self) -> i64 {
        self.words[DRIFT] as i64
    }

    /// The frames to send, in order: two at most.
    #[inline]
    pub fn frames(&self) -> &'a [Frame] {
        let number = fit(self.words[FRAMES]);
        sure(number.and_then(|number: usize| self.frames.get(..number)))
    }

    /// The notices for the client, in order: four at most.
    #[inline]
    pub fn notices(&self) -> impl Iterator<Item = BoxNotice> + 'a {
        let (notices, _) = self.words[NOTICES..].as_chunks();
        let number = fit(self.words[NUMBER]);
        let told = sure(number.and_then(|number: usize| notices.get(..number)));
        told.iter().map(|words| sure(BoxNotice::of_words(words)))
    }
}

/// Two replies are equal if they tell the same.
impl PartialEq for BoxReply<'_> {
    fn eq(&self, other: &BoxReply<'_>) -> bool {
        self.drift() == other.drift()
            && self.frames() == other.frames()
            && self.notices().eq(other.notices())
    }
}

impl Eq for BoxReply<'_> {}

impl fmt::Debug for BoxReply<'_> {
    fn fmt(&self, f: &mut fmt::Formatter<'_>) -> fmt::Result {
        f.debug_struct("BoxReply")
            .field("drift", &self.drift())
            .field("frames", &self.frames())
            .field("notices", &Notices(self))
            .finish()
    }
}

/// The notices of a reply, to be shown.
struct Notices<'a>(&'a BoxReply<'a>);

impl fmt::Debug for Notices<'_> {
    fn fmt(&self, f: &mut fmt::Formatter<'_>) -> fmt::Result {
        f.debug_list().entries(self.0.notices()).finish()
    }
}

impl BoxNotice {
    /// Of kind, and for a grant start, length and force bit.
    fn of_words(words: &[u64; BOX_NOTICE_WORDS]) -> Option<BoxNotice> {
        let [kind, start, length, force] = *words;
        Some(match kind {
            1 => BoxNotice::Window,
            2 => BoxNotice::Registered,
            3 => BoxNotice::Refused,
            4 => BoxNotice::Retry,
            5 => BoxNotice::Deregistered,
            6 => {
                let (start, length) = (fit(start)?, fit(length)?);
                BoxNotice::Grant(Granted {
                    grant: Grant { start, length },
                    force: bit(force)?,
                })
            }
            7 => BoxNotice::Open,
            8 => BoxNotice::Close,
            _ => return None,
        })
    }
}
