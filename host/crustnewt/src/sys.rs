//! The C face (`include/crustnewt.h`) as functions over slices: the only file
//! with unsafe code.
//!
//! What the header asks of a caller, slices give: they aren't null, their
//! lengths are right, words are aligned, and what is written overlaps nothing.
//! Any length may be lent; the library judges it and answers a number of the
//! service card, or 100 where too little was lent.
#![allow(unsafe_code)]

/// Octets of a frame.
pub const FRAME_OCTETS: usize = 60;
/// Words of a message.
pub const MESSAGE_WORDS: usize = 10;
/// Words of a box's block.
pub const BOX_WORDS: usize = 29;
/// Octets of the two frames that a call of the box can hand out.
pub const BOX_FRAMES_OCTETS: usize = 120;
/// Words that a call of the box tells.
pub const BOX_REPLY_WORDS: usize = 19;
/// Words of each notice that it tells.
pub const BOX_NOTICE_WORDS: usize = 4;
/// Words of a head's block.
pub const HEAD_WORDS: usize = 5;
/// Words of each link of the table.
pub const LINK_WORDS: usize = 5;
/// Most links of a table.
pub const MOST_LINKS: usize = 64;
/// Words that a call of the head tells.
pub const HEAD_REPLY_WORDS: usize = 10;
/// Words that an advance tells its ticks in.
pub const MADE_WORDS: usize = 1;
/// Most ticks of an advance.
pub const MOST_TICKS: u64 = 65_536;
/// Most octets of a REPORT's queue sets.
pub const MOST_SETS_OCTETS: usize = 39;

/// What a call of the box is lent.
#[derive(Debug)]
pub struct BoxMemory<'a> {
    /// The box: [`BOX_WORDS`].
    pub block: &'a mut [u64],
    /// For frames: [`BOX_FRAMES_OCTETS`].
    pub frames: &'a mut [u8],
    /// For what the call tells: [`BOX_REPLY_WORDS`].
    pub reply: &'a mut [u64],
}

/// What a call of the head is lent.
#[derive(Debug)]
pub struct HeadMemory<'a> {
    /// The head: [`HEAD_WORDS`].
    pub head: &'a mut [u64],
    /// Its table: [`LINK_WORDS`] for each link.
    pub links: &'a mut [u64],
    /// For frames: [`FRAME_OCTETS`] for each link.
    pub output: &'a mut [u8],
    /// For what the call tells: [`HEAD_REPLY_WORDS`].
    pub reply: &'a mut [u64],
}

/// Declares calls that end with what a box's call is lent, or with what is
/// lent behind that.
macro_rules! box_calls {
    ($($name:ident($($first:ident: $kind:ty),*)$([$($last:ident: $lent:ty),*])?;)*) => {
        extern "C" {
            $(fn $name(
                $($first: $kind,)*
                block: *mut u64,
                block_words: usize,
                frames: *mut u8,
                frames_octets: usize,
                reply: *mut u64,
                reply_words: usize,
                $($($last: $lent,)*)?
            ) -> u8;)*
        }
    };
}

box_calls! {
    crustnewt_box_fresh(address: u64);
    crustnewt_box_register();
    crustnewt_box_deregister();
    crustnewt_box_report(number: u8, sets: *const u8, sets_octets: usize);
    crustnewt_box_hear(octets: *const u8, octets_length: usize, random: u32);
    crustnewt_box_tick();
    crustnewt_box_advance(ticks: u64)[made: *mut u64, made_words: usize];
}

/// The same for calls of the head.
macro_rules! head_calls {
    ($($name:ident($($first:ident: $kind:ty),*)$([$($last:ident: $lent:ty),*])?;)*) => {
        extern "C" {
            $(fn $name(
                $($first: $kind,)*
                head: *mut u64,
                head_words: usize,
                links: *mut u64,
                links_words: usize,
                output: *mut u8,
                output_octets: usize,
                reply: *mut u64,
                reply_words: usize,
                $($($last: $lent,)*)?
            ) -> u8;)*
        }
    };
}

head_calls! {
    crustnewt_head_open(start: u32, length: u32, sync: u32, window: u32);
    crustnewt_head_admit(address: u64, pending: u8, sync: u32);
    crustnewt_head_reject(address: u64, pending: u8, sync: u32);
    crustnewt_head_reregister(link: usize, sync: u32);
    crustnewt_head_deregister(link: usize);
    crustnewt_head_gate(link: usize, grants: *const u64, grants_words: usize, force: u8);
    crustnewt_head_hear(link: usize, octets: *const u8, octets_length: usize);
    crustnewt_head_tick();
    crustnewt_head_advance(ticks: u64)[made: *mut u64, made_words: usize];
}

extern "C" {
    fn crustnewt_box_next_to_send(
        block: *const u64,
        block_words: usize,
        control: *const u8,
        control_octets: usize,
        data: *const u8,
        data_octets: usize,
    ) -> u8;
    fn crustnewt_box_ticks_until(block: *const u64, block_words: usize) -> u64;
    fn crustnewt_head_ticks_until(
        head: *const u64,
        head_words: usize,
        links: *const u64,
        links_words: usize,
    ) -> u64;
    fn crustnewt_head_fresh(
        address: u64,
        head: *mut u64,
        head_words: usize,
        links: *mut u64,
        links_words: usize,
        reply: *mut u64,
        reply_words: usize,
    ) -> u8;
    fn crustnewt_read(
        octets: *const u8,
        octets_length: usize,
        message: *mut u64,
        message_words: usize,
    ) -> u8;
    fn crustnewt_write(
        message: *const u64,
        message_words: usize,
        octets: *mut u8,
        octets_length: usize,
    ) -> u8;
}

/// Calls a function of the box: what comes first, then what is lent, then what
/// is lent behind that.
macro_rules! call_box {
    ($name:ident($($first:expr),*), $memory:expr $(, $last:expr)*) => {{
        let BoxMemory { block, frames, reply } = $memory;
        // SAFETY: pointers and lengths are those of slices that nobody else
        // holds while the call runs (see the file's head).
        unsafe {
            $name(
                $($first,)*
                block.as_mut_ptr(),
                block.len(),
                frames.as_mut_ptr(),
                frames.len(),
                reply.as_mut_ptr(),
                reply.len(),
                $($last.as_mut_ptr(), $last.len(),)*
            )
        }
    }};
}

/// The same for a function of the head.
macro_rules! call_head {
    ($name:ident($($first:expr),*), $memory:expr $(, $last:expr)*) => {{
        let HeadMemory { head, links, output, reply } = $memory;
        // SAFETY: as for a box.
        unsafe {
            $name(
                $($first,)*
                head.as_mut_ptr(),
                head.len(),
                links.as_mut_ptr(),
                links.len(),
                output.as_mut_ptr(),
                output.len(),
                reply.as_mut_ptr(),
                reply.len(),
                $($last.as_mut_ptr(), $last.len(),)*
            )
        }
    }};
}

/// `crustnewt_box_fresh`.
#[inline]
pub fn box_fresh(address: u64, memory: BoxMemory<'_>) -> u8 {
    call_box!(crustnewt_box_fresh(address), memory)
}

/// `crustnewt_box_register`.
#[inline]
pub fn box_register(memory: BoxMemory<'_>) -> u8 {
    call_box!(crustnewt_box_register(), memory)
}

/// `crustnewt_box_deregister`.
#[inline]
pub fn box_deregister(memory: BoxMemory<'_>) -> u8 {
    call_box!(crustnewt_box_deregister(), memory)
}

/// `crustnewt_box_report`.
#[inline]
pub fn box_report(number: u8, sets: &[u8], memory: BoxMemory<'_>) -> u8 {
    let (sets, octets) = (sets.as_ptr(), sets.len());
    call_box!(crustnewt_box_report(number, sets, octets), memory)
}

/// `crustnewt_box_hear`.
#[inline]
pub fn box_hear(octets: &[u8], random: u32, memory: BoxMemory<'_>) -> u8 {
    let (octets, length) = (octets.as_ptr(), octets.len());
    call_box!(crustnewt_box_hear(octets, length, random), memory)
}

/// `crustnewt_box_tick`.
#[inline]
pub fn box_tick(memory: BoxMemory<'_>) -> u8 {
    call_box!(crustnewt_box_tick(), memory)
}

/// `crustnewt_box_advance`: [`MADE_WORDS`] for `made`.
#[inline]
pub fn box_advance(ticks: u64, memory: BoxMemory<'_>, made: &mut [u64]) -> u8 {
    call_box!(crustnewt_box_advance(ticks), memory, made)
}

/// `crustnewt_box_ticks_until`.
#[inline]
pub fn box_ticks_until(block: &[u64]) -> u64 {
    // SAFETY: as for a box, and it is only read.
    unsafe { crustnewt_box_ticks_until(block.as_ptr(), block.len()) }
}

/// `crustnewt_box_next_to_send`.
#[inline]
pub fn box_next_to_send(block: &[u64], control: &[u8], data: &[u8]) -> u8 {
    // SAFETY: as for a box, and all three are only read.
    unsafe {
        crustnewt_box_next_to_send(
            block.as_ptr(),
            block.len(),
            control.as_ptr(),
            control.len(),
            data.as_ptr(),
            data.len(),
        )
    }
}

/// `crustnewt_head_fresh`, which is lent no output.
#[inline]
pub fn head_fresh(address: u64, head: &mut [u64], links: &mut [u64], reply: &mut [u64]) -> u8 {
    // SAFETY: as for a box.
    unsafe {
        crustnewt_head_fresh(
            address,
            head.as_mut_ptr(),
            head.len(),
            links.as_mut_ptr(),
            links.len(),
            reply.as_mut_ptr(),
            reply.len(),
        )
    }
}

/// `crustnewt_head_open`.
#[inline]
pub fn head_open(start: u32, length: u32, sync: u32, window: u32, memory: HeadMemory<'_>) -> u8 {
    call_head!(crustnewt_head_open(start, length, sync, window), memory)
}

/// `crustnewt_head_admit`.
#[inline]
pub fn head_admit(address: u64, pending: u8, sync: u32, memory: HeadMemory<'_>) -> u8 {
    call_head!(crustnewt_head_admit(address, pending, sync), memory)
}

/// `crustnewt_head_reject`.
#[inline]
pub fn head_reject(address: u64, pending: u8, sync: u32, memory: HeadMemory<'_>) -> u8 {
    call_head!(crustnewt_head_reject(address, pending, sync), memory)
}

/// `crustnewt_head_reregister`.
#[inline]
pub fn head_reregister(link: usize, sync: u32, memory: HeadMemory<'_>) -> u8 {
    call_head!(crustnewt_head_reregister(link, sync), memory)
}

/// `crustnewt_head_deregister`.
#[inline]
pub fn head_deregister(link: usize, memory: HeadMemory<'_>) -> u8 {
    call_head!(crustnewt_head_deregister(link), memory)
}

/// `crustnewt_head_gate`.
#[inline]
pub fn head_gate(link: usize, grants: &[u64], force: u8, memory: HeadMemory<'_>) -> u8 {
    let (grants, words) = (grants.as_ptr(), grants.len());
    call_head!(crustnewt_head_gate(link, grants, words, force), memory)
}

/// `crustnewt_head_hear`.
#[inline]
pub fn head_hear(link: usize, octets: &[u8], memory: HeadMemory<'_>) -> u8 {
    let (octets, length) = (octets.as_ptr(), octets.len());
    call_head!(crustnewt_head_hear(link, octets, length), memory)
}

/// `crustnewt_head_tick`.
#[inline]
pub fn head_tick(memory: HeadMemory<'_>) -> u8 {
    call_head!(crustnewt_head_tick(), memory)
}

/// `crustnewt_head_advance`: [`MADE_WORDS`] for `made`.
#[inline]
pub fn head_advance(ticks: u64, memory: HeadMemory<'_>, made: &mut [u64]) -> u8 {
    call_head!(crustnewt_head_advance(ticks), memory, made)
}

/// `crustnewt_head_ticks_until`.
#[inline]
pub fn head_ticks_until(head: &[u64], links: &[u64]) -> u64 {
    // SAFETY: as for a box, and both are only read.
    unsafe { crustnewt_head_ticks_until(head.as_ptr(), head.len(), links.as_ptr(), links.len()) }
}

/// `crustnewt_read`.
#[inline]
pub fn read(octets: &[u8], message: &mut [u64]) -> u8 {
    // SAFETY: as for a box.
    unsafe {
        crustnewt_read(
            octets.as_ptr(),
            octets.len(),
            message.as_mut_ptr(),
            message.len(),
        )
    }
}

/// `crustnewt_write`.
#[inline]
pub fn write(message: &[u64], octets: &mut [u8]) -> u8 {
    // SAFETY: as for a box.
    unsafe {
        crustnewt_write(
            message.as_ptr(),
            message.len(),
            octets.as_mut_ptr(),
            octets.len(),
        )
    }
}
