//! Words of the C face in the types of their fields.

use crate::message::Grant;

/// A word in the type of its field; `None` where it is too large.
#[inline]
pub(crate) fn fit<T: TryFrom<u64>>(word: u64) -> Option<T> {
    T::try_from(word).ok()
}

/// A bit.
#[inline]
pub(crate) fn bit(word: u64) -> Option<bool> {
    (word <= 1).then_some(word == 1)
}

/// What the library's words say. Those that say nothing end in a panic rather
/// than in a guess: it leaves none.
#[inline]
pub(crate) fn sure<T>(said: Option<T>) -> T {
    said.expect("the library leaves no such words")
}

impl Grant {
    /// A grant as one word: the start in the upper 32 bits, the length below.
    #[inline]
    pub(crate) fn word(&self) -> u64 {
        u64::from(self.start) << 32 | u64::from(self.length)
    }

    /// The grant of such a word.
    #[inline]
    pub(crate) fn of_word(word: u64) -> Grant {
        Grant {
            start: (word >> 32) as u32,
            length: word as u32,
        }
    }
}
