//! The head (OLT).

mod parts;
mod reply;
mod table;

use crate::advanced::Advanced;
use crate::message::Grant;
use crate::refusal::Refusal;
use crate::sys::{self, HeadMemory, HEAD_REPLY_WORDS, HEAD_WORDS};
use crate::word::sure;
use core::fmt;

pub use parts::{HeadParts, Window};
pub use reply::{HeadNotice, HeadNoticeKind, HeadReply};
#[cfg(feature = "std")]
pub use table::VecTable;
pub use table::{ArrayTable, Link, LinkState, Table};

/// A head over the memory of its table. It owns its block, and the words that
/// its calls tell their replies in.
#[derive(Clone)]
pub struct Head<T> {
    /// Sound, and so is the table.
    words: [u64; HEAD_WORDS],
    table: T,
    reply: [u64; HEAD_REPLY_WORDS],
}

/// A discovery window to open.
#[derive(Clone, Copy, Debug, PartialEq, Eq)]
pub struct OpenWindow {
    /// Start and length of the discovery grant.
    pub grant: Grant,
    /// Sync time that the head needs.
    pub sync: u32,
    /// Ticks that the head listens for requests, 1 to 131,072.
    pub window: u32,
}

/// Grants of a GATE. One more is enough to be refused, and none is lent beyond
/// that.
const MOST_GRANTS: usize = 4;

impl<T: Table> Head<T> {
    /// A head that has not begun: count 0, window idle. Every link of the table
    /// is idle then.
    ///
    /// [`Refusal::Range`] for an address that is zero, a group's or above 48
    /// bits.
    pub fn fresh(address: u64, table: T) -> Result<Head<T>, Refusal> {
        let mut made = Head::over([0; HEAD_WORDS], table);
        made.call(|memory| sys::head_fresh(address, memory.head, memory.links, memory.reply))?;
        Ok(made)
    }

    /// A head that was stored, with its table; [`Refusal::Unsound`] where they
    /// aren't sound.
    pub fn restored(parts: &HeadParts, table: T) -> Result<Head<T>, Refusal> {
        Head::from_words(parts.words(), table)
    }

    /// A head that was stored, by its words.
    pub fn from_words(words: [u64; HEAD_WORDS], table: T) -> Result<Head<T>, Refusal> {
        let mut made = Head::over(words, table);
        // Every call judges soundness first; this one changes nothing, since
        // no table has that link.
        match made.deregister(usize::MAX) {
            Err(Refusal::Unsound) => Err(Refusal::Unsound),
            _ => Ok(made),
        }
    }

    fn over(words: [u64; HEAD_WORDS], table: T) -> Head<T> {
        Head {
            words,
            table,
            reply: [0; HEAD_REPLY_WORDS],
        }
    }

    /// The client opens a discovery window.
    #[inline]
    pub fn open_window(&mut self, asked: &OpenWindow) -> Result<HeadReply<'_>, Refusal> {
        let OpenWindow {
            grant: Grant { start, length },
            sync,
            window,
        } = *asked;
        self.call(|memory| sys::head_open(start, length, sync, window, memory))
    }

    /// The client admits a box that asked: it takes the lowest idle link.
    /// `pending` is echoed, `sync` the sync time to assign.
    #[inline]
    pub fn admit(
        &mut self,
        address: u64,
        pending: u8,
        sync: u32,
    ) -> Result<HeadReply<'_>, Refusal> {
        self.call(|memory| sys::head_admit(address, pending, sync, memory))
    }

    /// The client rejects a box that asked.
    #[inline]
    pub fn reject(
        &mut self,
        address: u64,
        pending: u8,
        sync: u32,
    ) -> Result<HeadReply<'_>, Refusal> {
        self.call(|memory| sys::head_reject(address, pending, sync, memory))
    }

    /// The client has a registered box register anew. Links are numbered from
    /// 1.
    #[inline]
    pub fn reregister(&mut self, link: usize, sync: u32) -> Result<HeadReply<'_>, Refusal> {
        self.call(|memory| sys::head_reregister(link, sync, memory))
    }

    /// The client drops a registered box.
    #[inline]
    pub fn deregister(&mut self, link: usize) -> Result<HeadReply<'_>, Refusal> {
        self.call(|memory| sys::head_deregister(link, memory))
    }

    /// The client sends a GATE of up to four grants. Bit 0 of `force` is the
    /// first grant's force bit.
    #[inline]
    pub fn gate(
        &mut self,
        link: usize,
        grants: &[Grant],
        force: u8,
    ) -> Result<HeadReply<'_>, Refusal> {
        let mut words = [0; MOST_GRANTS + 1];
        for (word, grant) in words.iter_mut().zip(grants) {
            *word = grant.word();
        }
        let asked = &words[..grants.len().min(words.len())];
        self.call(|memory| sys::head_gate(link, asked, force, memory))
    }

    /// A frame came on a link.
    ///
    /// That is 0 for a REGISTER_REQ that asks to register, since newcomers share
    /// the broadcast LLID, and else the link of the box that sent it: the LLID
    /// that it came under, which is the port of the box's REGISTER; or, without
    /// LLIDs, the place of its source among the addresses of
    /// [`links`](Head::links), from 1.
    #[inline]
    pub fn hear(&mut self, link: usize, octets: &[u8]) -> Result<HeadReply<'_>, Refusal> {
        self.call(|memory| sys::head_hear(link, octets, memory))
    }

    /// One quantum has passed.
    ///
    /// There is no notice: a link whose wait or watchdog has run out is idle,
    /// and its REGISTER among the frames.
    #[inline]
    pub fn tick(&mut self) -> Result<HeadReply<'_>, Refusal> {
        self.call(sys::head_tick)
    }

    /// So many quanta have passed, 1 to 65,536: that many single ticks, but none
    /// behind one that hands out a frame.
    ///
    /// The reply is the last tick's. [`Refusal::Grant`] for another
    /// number; after a refusal no tick was made.
    #[inline]
    pub fn advance(&mut self, ticks: u64) -> Result<Advanced<HeadReply<'_>>, Refusal> {
        let mut made = [0];
        let reply = self.call(|memory| sys::head_advance(ticks, memory, &mut made))?;
        let [made] = made;
        Ok(Advanced { reply, made })
    }

    /// How many ticks from now hand out nothing, up to 65,536; below that, the
    /// tick after them hands out a frame.
    #[inline]
    pub fn ticks_until(&self) -> u64 {
        sys::head_ticks_until(&self.words, self.table.words())
    }

    /// The links of its table: link 1 first.
    pub fn links(&self) -> impl ExactSizeIterator<Item = Link> + '_ {
        let (links, _) = self.table.words().as_chunks();
        links.iter().map(|words| sure(Link::of_words(words)))
    }

    /// The link of this number, from 1.
    pub fn link(&self, number: usize) -> Option<Link> {
        self.links().nth(number.checked_sub(1)?)
    }

    /// Everything that it holds beside the table.
    pub fn parts(&self) -> HeadParts {
        sure(HeadParts::of_words(&self.words))
    }

    /// Its block, to store it beside the table's [`words`](Table::words). As
    /// octets of memory they are in the machine's order.
    #[inline]
    pub fn words(&self) -> &[u64; HEAD_WORDS] {
        &self.words
    }

    /// The memory of its table. The output has the frames of the last call that
    /// handed some out, from the start on.
    #[inline]
    pub fn table(&self) -> &T {
        &self.table
    }

    #[inline]
    fn call(&mut self, call: impl FnOnce(HeadMemory<'_>) -> u8) -> Result<HeadReply<'_>, Refusal> {
        let (links, output) = self.table.lend();
        Refusal::judge(call(HeadMemory {
            head: &mut self.words,
            links,
            output: output.as_flattened_mut(),
            reply: &mut self.reply,
        }))?;
        Ok(HeadReply::of(&self.reply, self.table.output()))
    }
}

impl<T: Table> fmt::Debug for Head<T> {
    fn fmt(&self, f: &mut fmt::Formatter<'_>) -> fmt::Result {
        f.debug_struct("Head")
            .field("parts", &self.parts())
            .field("links", &Links(self))
            .finish()
    }
}

/// The links of a head, to be shown.
struct Links<'a, T>(&'a Head<T>);

impl<T: Table> fmt::Debug for Links<'_, T> {
    fn fmt(&self, f: &mut fmt::Formatter<'_>) -> fmt::Result {
        f.debug_list().entries(self.0.links()).finish()
    }
}
