//! What a head holds beside its table, and the words that hold it.

use crate::sys::HEAD_WORDS;
use crate::word::fit;

/// Everything that a head holds beside its table.
#[derive(Clone, Copy, Debug, PartialEq, Eq)]
pub struct HeadParts {
    /// Its own address.
    pub address: u64,
    /// Its counter.
    pub count: u32,
    /// The discovery window.
    pub window: Window,
}

/// The discovery window.
#[derive(Clone, Copy, Debug, PartialEq, Eq)]
pub enum Window {
    /// None is planned.
    Idle,
    /// Planned.
    Before {
        /// Ticks until it opens.
        left: u32,
        /// Ticks that it will be open.
        length: u32,
    },
    /// Open.
    Inside {
        /// Ticks until it closes.
        left: u32,
    },
}

impl HeadParts {
    /// What these words hold; `None` unless they are the very
    /// [`words`](HeadParts::words) of some parts. Whether the head is sound is
    /// for the library to say.
    pub fn of_words(words: &[u64; HEAD_WORDS]) -> Option<HeadParts> {
        let [address, count, window, left, length] = *words;
        let (left, length) = (fit(left)?, fit(length)?);
        let parts = HeadParts {
            address,
            count: fit(count)?,
            window: match window {
                0 => Window::Idle,
                1 => Window::Before { left, length },
                2 => Window::Inside { left },
                _ => return None,
            },
        };
        (parts.words() == *words).then_some(parts)
    }

    /// The words that hold it.
    pub fn words(&self) -> [u64; HEAD_WORDS] {
        let (window, left, length) = match self.window {
            Window::Idle => (0, 0, 0),
            Window::Before { left, length } => (1, left, length),
            Window::Inside { left } => (2, left, 0),
        };
        let (address, count) = (self.address, self.count.into());
        [address, count, window, left.into(), length.into()]
    }
}
