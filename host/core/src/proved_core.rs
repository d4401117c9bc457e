//! The proved library as a core.
//!
//! It hands on to the C face what it is asked, and turns parts into the structs
//! of `plain` and back. States, tables and outputs are handed in unjudged, as
//! the tools ask; words that are nobody's end in a panic, not in a guess.

mod turn;

use crate::{Advanced, BoxCore, BoxReply, Core, HeadCore, HeadReply};
use crustnewt::sys::{self, BoxMemory, HeadMemory};
use crustnewt::{BoxParts, HeadParts, Link, Message, Refusal};
use plain::{Address, Few, Frame, GateRequest, Newcomer, OpenWindow};
use turn::Turn;

/// The proved implementation.
#[derive(Clone, Copy, Debug, Default)]
pub struct ProvedCore;

/// A head in any state, with any table and output.
#[derive(Default)]
struct ProvedHead {
    head: [u64; sys::HEAD_WORDS],
    links: Vec<u64>,
    output: Vec<u8>,
}

/// A box in any state.
struct ProvedBox {
    block: [u64; sys::BOX_WORDS],
}

/// Grants lent to a gate at most. Each number above four is refused alike, and
/// no memory holds as many as can be asked for.
const MOST_GRANTS: u64 = 64;

/// What lent memory holds before a call, so that nothing rests on it.
const FILLER: u8 = 0xEE;
const FILLER_WORD: u64 = u64::from_ne_bytes([FILLER; 8]);

impl Core for ProvedCore {
    fn read(&self, frame: &[u8]) -> Result<plain::Message, u8> {
        let mut message = Message::default();
        message.read(frame).map_err(Refusal::number)?;
        Ok(message.turn())
    }

    fn write(&self, message: &plain::Message) -> (u8, Frame) {
        let message: Message = (*message).turn();
        let mut frame = [FILLER; sys::FRAME_OCTETS];
        let written = message.write(&mut frame);
        (written.map_or_else(Refusal::number, |()| 0), frame)
    }

    fn head(&self) -> Box<dyn HeadCore> {
        Box::new(ProvedHead::default())
    }

    fn floor_box(&self) -> Box<dyn BoxCore> {
        let block = [0; sys::BOX_WORDS];
        Box::new(ProvedBox { block })
    }
}

impl ProvedHead {
    fn call(&mut self, call: impl FnOnce(HeadMemory<'_>) -> u8) -> HeadReply {
        let mut words = [FILLER_WORD; sys::HEAD_REPLY_WORDS];
        let number = call(HeadMemory {
            head: &mut self.head,
            links: &mut self.links,
            output: &mut self.output,
            reply: &mut words,
        });
        let (output, _) = self.output.as_chunks();
        let told = crustnewt::HeadReply::of(&words, output);
        HeadReply {
            number,
            frames: told.frames().len(),
            notice: told.notice().map(Turn::turn),
        }
    }
}

impl HeadCore for ProvedHead {
    fn lend_links(&mut self, links: usize) {
        self.links.resize(sys::LINK_WORDS * links, 0);
    }

    fn lend_output(&mut self, output: Vec<u8>) {
        self.output = output;
    }

    fn fresh(&mut self, address: Address) -> HeadReply {
        // It takes the place of the head that was there, refused or not; the
        // library by itself leaves that one where the table can't be served.
        self.head = [0; sys::HEAD_WORDS];
        self.call(|memory| sys::head_fresh(address.0, memory.head, memory.links, memory.reply))
    }

    fn open_window(&mut self, request: &OpenWindow) -> HeadReply {
        let OpenWindow {
            grant,
            sync,
            window,
        } = *request;
        let (start, length) = (grant.start.0, grant.length);
        self.call(|memory| sys::head_open(start, length, sync, window, memory))
    }

    fn admit(&mut self, newcomer: &Newcomer) -> HeadReply {
        let n = newcomer;
        self.call(|memory| sys::head_admit(n.address.0, n.pending, n.sync, memory))
    }

    fn reject(&mut self, newcomer: &Newcomer) -> HeadReply {
        let n = newcomer;
        self.call(|memory| sys::head_reject(n.address.0, n.pending, n.sync, memory))
    }

    fn reregister(&mut self, link: u64, sync: u32) -> HeadReply {
        self.call(|memory| sys::head_reregister(number(link), sync, memory))
    }

    fn deregister(&mut self, link: u64) -> HeadReply {
        self.call(|memory| sys::head_deregister(number(link), memory))
    }

    fn gate(&mut self, request: &GateRequest) -> HeadReply {
        let mut grants: Vec<u64> = request.grants.map(word).into();
        grants.resize(request.asked.min(MOST_GRANTS) as usize, 0);
        let link = number(request.link);
        self.call(|memory| sys::head_gate(link, &grants, request.force, memory))
    }

    fn hear(&mut self, link: u64, frame: &[u8]) -> HeadReply {
        self.call(|memory| sys::head_hear(number(link), frame, memory))
    }

    fn tick(&mut self) -> HeadReply {
        self.call(sys::head_tick)
    }

    fn advance(&mut self, ticks: u64) -> Advanced<HeadReply> {
        let mut made = [FILLER_WORD; sys::MADE_WORDS];
        let reply = self.call(|memory| sys::head_advance(ticks, memory, &mut made));
        let [made] = made;
        Advanced { reply, made }
    }

    fn ticks_until(&self) -> u64 {
        sys::head_ticks_until(&self.head, &self.links)
    }

    fn state(&self) -> plain::Head {
        somebody(HeadParts::of_words(&self.head)).turn()
    }

    fn set_state(&mut self, state: &plain::Head) {
        self.head = Turn::<HeadParts>::turn(*state).words();
    }

    fn links(&self) -> usize {
        self.links.len() / sys::LINK_WORDS
    }

    fn link(&self, place: usize) -> plain::Link {
        let (links, _) = self.links.as_chunks();
        somebody(Link::of_words(&links[place])).turn()
    }

    fn set_link(&mut self, place: usize, link: &plain::Link) {
        let (links, _) = self.links.as_chunks_mut();
        links[place] = Turn::<Link>::turn(*link).words();
    }

    fn output(&self) -> &[u8] {
        &self.output
    }
}

impl ProvedBox {
    fn call(&mut self, call: impl FnOnce(BoxMemory<'_>) -> u8) -> BoxReply {
        let mut words = [FILLER_WORD; sys::BOX_REPLY_WORDS];
        let mut frames = [[FILLER; sys::FRAME_OCTETS]; 2];
        let number = call(BoxMemory {
            block: &mut self.block,
            frames: frames.as_flattened_mut(),
            reply: &mut words,
        });
        let told = crustnewt::BoxReply::of(&words, &frames);
        BoxReply {
            number,
            drift: i32::try_from(told.drift()).expect("a distance has 32 bits"),
            frames: few(told.frames().iter().copied()),
            notices: few(told.notices().map(Turn::turn)),
        }
    }
}

impl BoxCore for ProvedBox {
    fn fresh(&mut self, address: Address) -> BoxReply {
        self.call(|memory| sys::box_fresh(address.0, memory))
    }

    fn register(&mut self) -> BoxReply {
        self.call(sys::box_register)
    }

    fn deregister(&mut self) -> BoxReply {
        self.call(sys::box_deregister)
    }

    fn report(&mut self, number: u8, sets: &[u8]) -> BoxReply {
        self.call(|memory| sys::box_report(number, sets, memory))
    }

    fn hear(&mut self, frame: &[u8], random: u32) -> BoxReply {
        self.call(|memory| sys::box_hear(frame, random, memory))
    }

    fn tick(&mut self) -> BoxReply {
        self.call(sys::box_tick)
    }

    fn advance(&mut self, ticks: u64) -> Advanced<BoxReply> {
        let mut made = [FILLER_WORD; sys::MADE_WORDS];
        let reply = self.call(|memory| sys::box_advance(ticks, memory, &mut made));
        let [made] = made;
        Advanced { reply, made }
    }

    fn ticks_until(&self) -> u64 {
        sys::box_ticks_until(&self.block)
    }

    fn next(&self, control: usize, data: usize) -> plain::Next {
        let (control, data) = (vec![0; control], vec![0; data]);
        match sys::box_next_to_send(&self.block, &control, &data) {
            0 => plain::Next::Nothing,
            1 => plain::Next::Control,
            2 => plain::Next::Data,
            number => panic!("the next frame is none of three: {number}"),
        }
    }

    fn state(&self) -> plain::FloorBox {
        somebody(BoxParts::of_words(&self.block)).turn()
    }

    fn set_state(&mut self, state: &plain::FloorBox) {
        self.block = Turn::<BoxParts>::turn(*state).words();
    }
}

/// A link number; one that the machine can't hold is above every table.
fn number(link: u64) -> usize {
    usize::try_from(link).unwrap_or(usize::MAX)
}

/// A grant as the C face is lent it.
fn word(grant: plain::Grant) -> u64 {
    u64::from(grant.start.0) << 32 | u64::from(grant.length)
}

/// What words hold that a call left.
fn somebody<T>(parts: Option<T>) -> T {
    parts.expect("a call left words that are nobody's")
}

fn few<T: Copy, const N: usize>(items: impl Iterator<Item = T>) -> Few<T, N> {
    let mut few = Few::none();
    items.for_each(|item| few.push(item));
    few
}
