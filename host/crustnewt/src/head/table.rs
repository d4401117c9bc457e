//! The memory of a head's links and frames.

use crate::message::Frame;
use crate::sys::{FRAME_OCTETS, LINK_WORDS, MOST_LINKS};
use crate::word::fit;

/// Where a head keeps its table of links and hands out its frames.
///
/// [`ArrayTable`] and, with the feature `std`, `VecTable` are such memory; it
/// can be made of any other. The library judges how much is lent at each call.
pub trait Table {
    /// The words of the links, five each, link 1 first.
    fn words(&self) -> &[u64];
    /// The output: a frame for each link.
    fn output(&self) -> &[Frame];
    /// Both, to be written.
    fn lend(&mut self) -> (&mut [u64], &mut [Frame]);
}

/// A table of `LINKS` links, 1 to 64, that is part of its head. Another number
/// isn't compiled.
#[derive(Clone, Debug)]
pub struct ArrayTable<const LINKS: usize> {
    words: [[u64; LINK_WORDS]; LINKS],
    output: [Frame; LINKS],
}

/// A table of 1 to 64 links on the heap.
#[cfg(feature = "std")]
#[derive(Clone, Debug)]
pub struct VecTable {
    words: std::vec::Vec<[u64; LINK_WORDS]>,
    output: std::vec::Vec<Frame>,
}

/// One link of the table.
#[derive(Clone, Copy, Debug, PartialEq, Eq)]
pub struct Link {
    /// Address of the box that holds it, zero when idle.
    pub address: u64,
    /// Whether and how it is held.
    pub state: LinkState,
    /// Ticks left of the wait for REGISTER_ACK, 0 when stopped.
    pub wait: u32,
    /// Ticks left of the watchdog, 0 when stopped.
    pub watchdog: u32,
    /// Ticks left until a periodic GATE, 0 when stopped.
    pub periodic: u32,
}

/// Whether and how a link is held.
#[derive(Clone, Copy, Debug, PartialEq, Eq)]
pub enum LinkState {
    /// Held by no box.
    Idle = 0,
    /// Held, waiting for REGISTER_ACK.
    Waiting = 1,
    /// Held by a registered box.
    Registered = 2,
}

impl<const LINKS: usize> ArrayTable<LINKS> {
    /// Idle links.
    pub const fn new() -> ArrayTable<LINKS> {
        ArrayTable::from_words([[0; LINK_WORDS]; LINKS])
    }

    /// These links, by their [`words`](Link::words).
    pub const fn from_words(words: [[u64; LINK_WORDS]; LINKS]) -> ArrayTable<LINKS> {
        const {
            assert!(
                LINKS >= 1 && LINKS <= MOST_LINKS,
                "a table has 1 to 64 links"
            )
        };
        let output = [[0; FRAME_OCTETS]; LINKS];
        ArrayTable { words, output }
    }
}

impl<const LINKS: usize> Default for ArrayTable<LINKS> {
    fn default() -> ArrayTable<LINKS> {
        ArrayTable::new()
    }
}

impl<const LINKS: usize> Table for ArrayTable<LINKS> {
    #[inline]
    fn words(&self) -> &[u64] {
        self.words.as_flattened()
    }

    #[inline]
    fn output(&self) -> &[Frame] {
        &self.output
    }

    #[inline]
    fn lend(&mut self) -> (&mut [u64], &mut [Frame]) {
        (self.words.as_flattened_mut(), &mut self.output)
    }
}

#[cfg(feature = "std")]
impl VecTable {
    /// So many idle links; `None` unless they are 1 to 64.
    pub fn new(links: usize) -> Option<VecTable> {
        // None is made of a number that is refused.
        let allowed = links.min(MOST_LINKS + 1);
        VecTable::from_words(std::vec![[0; LINK_WORDS]; allowed])
    }

    /// These links, by their [`words`](Link::words); `None` unless they are 1
    /// to 64.
    pub fn from_words(words: std::vec::Vec<[u64; LINK_WORDS]>) -> Option<VecTable> {
        let allowed = (1..=MOST_LINKS).contains(&words.len());
        let output = std::vec![[0; FRAME_OCTETS]; words.len()];
        allowed.then_some(VecTable { words, output })
    }
}

#[cfg(feature = "std")]
impl Table for VecTable {
    #[inline]
    fn words(&self) -> &[u64] {
        self.words.as_flattened()
    }

    #[inline]
    fn output(&self) -> &[Frame] {
        &self.output
    }

    #[inline]
    fn lend(&mut self) -> (&mut [u64], &mut [Frame]) {
        (self.words.as_flattened_mut(), &mut self.output)
    }
}

impl Link {
    /// A link that waits for this box's REGISTER_ACK, so many ticks more.
    pub const fn waiting(address: u64, wait: u32) -> Link {
        Link {
            address,
            state: LinkState::Waiting,
            wait,
            watchdog: 0,
            periodic: 0,
        }
    }

    /// A link that this registered box holds, with so many ticks left of its
    /// timers.
    pub const fn registered(address: u64, watchdog: u32, periodic: u32) -> Link {
        Link {
            address,
            state: LinkState::Registered,
            wait: 0,
            watchdog,
            periodic,
        }
    }

    /// What these words hold; `None` unless they are the very
    /// [`words`](Link::words) of some link. Whether it is sound is for the
    /// library to say.
    pub fn of_words(words: &[u64; LINK_WORDS]) -> Option<Link> {
        let [address, state, wait, watchdog, periodic] = *words;
        Some(Link {
            address,
            state: match state {
                0 => LinkState::Idle,
                1 => LinkState::Waiting,
                2 => LinkState::Registered,
                _ => return None,
            },
            wait: fit(wait)?,
            watchdog: fit(watchdog)?,
            periodic: fit(periodic)?,
        })
    }

    /// The words that hold it.
    pub fn words(&self) -> [u64; LINK_WORDS] {
        let timers = [self.wait, self.watchdog, self.periodic].map(u64::from);
        let [wait, watchdog, periodic] = timers;
        [self.address, self.state as u64, wait, watchdog, periodic]
    }
}
