//! The functions of the C face as values.

use crustnewt::sys::{self, BoxMemory, HeadMemory};

/// Octets of memory behind what a call lends.
const BEHIND: usize = 64;

/// A call of a box.
#[derive(Clone, Debug, PartialEq, Eq)]
pub enum BoxCall {
    /// `crustnewt_box_fresh`.
    Fresh(u64),
    /// `crustnewt_box_register`.
    Register,
    /// `crustnewt_box_deregister`.
    Deregister,
    /// `crustnewt_box_report`: how many sets, memory that begins with them, and
    /// how many octets of it are lent.
    Report(u8, Vec<u8>, usize),
    /// `crustnewt_box_hear`.
    Hear(Vec<u8>, u32),
    /// `crustnewt_box_tick`.
    Tick,
    /// `crustnewt_box_advance`.
    Advance(u64),
}

/// A call of a head.
#[derive(Clone, Debug, PartialEq, Eq)]
pub enum HeadCall {
    /// `crustnewt_head_fresh`.
    Fresh(u64),
    /// `crustnewt_head_open`: start, length, sync, window.
    Open([u32; 4]),
    /// `crustnewt_head_admit`.
    Admit(u64, u8, u32),
    /// `crustnewt_head_reject`.
    Reject(u64, u8, u32),
    /// `crustnewt_head_reregister`.
    Reregister(usize, u32),
    /// `crustnewt_head_deregister`.
    Deregister(usize),
    /// `crustnewt_head_gate`: link, grants, force bits.
    Gate(usize, Vec<u64>, u8),
    /// `crustnewt_head_hear`.
    Hear(usize, Vec<u8>),
    /// `crustnewt_head_tick`.
    Tick,
    /// `crustnewt_head_advance`.
    Advance(u64),
}

impl BoxCall {
    /// The same call, with this filler behind what it lends.
    pub fn with_behind(&self, filler: u8) -> BoxCall {
        let mut call = self.clone();
        if let BoxCall::Report(_, sets, lent) = &mut call {
            sets.truncate(*lent);
            sets.resize(*lent + BEHIND, filler);
        }
        call
    }

    /// How far it is to advance, where it does.
    pub fn ticks(&self) -> Option<u64> {
        match *self {
            BoxCall::Advance(ticks) => Some(ticks),
            _ => None,
        }
    }
}

impl HeadCall {
    /// How far it is to advance, where it does.
    pub fn ticks(&self) -> Option<u64> {
        match *self {
            HeadCall::Advance(ticks) => Some(ticks),
            _ => None,
        }
    }
}

/// The functions to call.
pub trait Face {
    /// Makes a call of a box; only an advance tells how many ticks it made.
    fn on_box(&self, call: &BoxCall, memory: BoxMemory<'_>, made: &mut [u64]) -> u8;
    /// Makes a call of a head; only an advance tells how many ticks it made.
    fn on_head(&self, call: &HeadCall, memory: HeadMemory<'_>, made: &mut [u64]) -> u8;
    /// `crustnewt_box_ticks_until`.
    fn box_ticks_until(&self, block: &[u64]) -> u64;
    /// `crustnewt_head_ticks_until`.
    fn head_ticks_until(&self, head: &[u64], links: &[u64]) -> u64;
    /// `crustnewt_box_next_to_send`.
    fn next_to_send(&self, block: &[u64], control: &[u8], data: &[u8]) -> u8;
    /// `crustnewt_read`.
    fn read(&self, octets: &[u8], message: &mut [u64]) -> u8;
    /// `crustnewt_write`.
    fn write(&self, message: &[u64], octets: &mut [u8]) -> u8;
}

/// The library's own.
pub struct Library;

impl Face for Library {
    fn on_box(&self, call: &BoxCall, memory: BoxMemory<'_>, made: &mut [u64]) -> u8 {
        match call {
            BoxCall::Fresh(address) => sys::box_fresh(*address, memory),
            BoxCall::Register => sys::box_register(memory),
            BoxCall::Deregister => sys::box_deregister(memory),
            BoxCall::Report(number, sets, lent) => sys::box_report(*number, &sets[..*lent], memory),
            BoxCall::Hear(octets, random) => sys::box_hear(octets, *random, memory),
            BoxCall::Tick => sys::box_tick(memory),
            BoxCall::Advance(ticks) => sys::box_advance(*ticks, memory, made),
        }
    }

    fn on_head(&self, call: &HeadCall, memory: HeadMemory<'_>, made: &mut [u64]) -> u8 {
        match *call {
            HeadCall::Fresh(address) => {
                sys::head_fresh(address, memory.head, memory.links, memory.reply)
            }
            HeadCall::Open([start, length, sync, window]) => {
                sys::head_open(start, length, sync, window, memory)
            }
            HeadCall::Admit(address, pending, sync) => {
                sys::head_admit(address, pending, sync, memory)
            }
            HeadCall::Reject(address, pending, sync) => {
                sys::head_reject(address, pending, sync, memory)
            }
            HeadCall::Reregister(link, sync) => sys::head_reregister(link, sync, memory),
            HeadCall::Deregister(link) => sys::head_deregister(link, memory),
            HeadCall::Gate(link, ref grants, force) => sys::head_gate(link, grants, force, memory),
            HeadCall::Hear(link, ref octets) => sys::head_hear(link, octets, memory),
            HeadCall::Tick => sys::head_tick(memory),
            HeadCall::Advance(ticks) => sys::head_advance(ticks, memory, made),
        }
    }

    fn box_ticks_until(&self, block: &[u64]) -> u64 {
        sys::box_ticks_until(block)
    }

    fn head_ticks_until(&self, head: &[u64], links: &[u64]) -> u64 {
        sys::head_ticks_until(head, links)
    }

    fn next_to_send(&self, block: &[u64], control: &[u8], data: &[u8]) -> u8 {
        sys::box_next_to_send(block, control, data)
    }

    fn read(&self, octets: &[u8], message: &mut [u64]) -> u8 {
        sys::read(octets, message)
    }

    fn write(&self, message: &[u64], octets: &mut [u8]) -> u8 {
        sys::write(message, octets)
    }
}
