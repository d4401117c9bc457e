//! The plain implementation as a core.

use crate::{Advanced, BoxCore, BoxReply, Core, HeadCore, HeadReply};
use plain::{
    frame, Address, BoxAnswer, FloorBox, Frame, GateRequest, Head, HeadAnswer, Link, Message,
    Newcomer, Next, OpenWindow, Refusal,
};

/// The plain implementation.
#[derive(Clone, Copy, Debug, Default)]
pub struct PlainCore;

impl Core for PlainCore {
    fn read(&self, frame: &[u8]) -> Result<Message, u8> {
        frame::read(frame).map_err(Refusal::number)
    }

    fn write(&self, message: &Message) -> (u8, Frame) {
        match frame::write(message) {
            Ok(frame) => (0, frame),
            Err(refusal) => (refusal.number(), [0; frame::FRAME_OCTETS]),
        }
    }

    fn head(&self) -> Box<dyn HeadCore> {
        Box::new(PlainHead::default())
    }

    fn floor_box(&self) -> Box<dyn BoxCore> {
        Box::new(FloorBox::default())
    }
}

#[derive(Default)]
struct PlainHead {
    head: Head,
    links: Vec<Link>,
    output: Vec<u8>,
}

impl HeadCore for PlainHead {
    fn lend_links(&mut self, links: usize) {
        self.links.resize(links, Link::IDLE);
    }

    fn lend_output(&mut self, output: Vec<u8>) {
        self.output = output;
    }

    fn fresh(&mut self, address: Address) -> HeadReply {
        let (head, answer) = Head::fresh(address, &mut self.links);
        self.head = head;
        answer.into()
    }

    fn open_window(&mut self, request: &OpenWindow) -> HeadReply {
        self.head
            .open_window(&self.links, &mut self.output, request)
            .into()
    }

    fn admit(&mut self, newcomer: &Newcomer) -> HeadReply {
        self.head
            .admit(&mut self.links, &mut self.output, newcomer)
            .into()
    }

    fn reject(&mut self, newcomer: &Newcomer) -> HeadReply {
        self.head
            .reject(&self.links, &mut self.output, newcomer)
            .into()
    }

    fn reregister(&mut self, link: u64, sync: u32) -> HeadReply {
        self.head
            .reregister(&mut self.links, &mut self.output, link, sync)
            .into()
    }

    fn deregister(&mut self, link: u64) -> HeadReply {
        self.head
            .deregister(&mut self.links, &mut self.output, link)
            .into()
    }

    fn gate(&mut self, request: &GateRequest) -> HeadReply {
        self.head
            .gate(&mut self.links, &mut self.output, request)
            .into()
    }

    fn hear(&mut self, link: u64, frame: &[u8]) -> HeadReply {
        frame::read(frame)
            .and_then(|message| {
                let (links, output) = (&mut self.links, &mut self.output);
                self.head.hear(links, output, link, &message)
            })
            .into()
    }

    fn tick(&mut self) -> HeadReply {
        self.head.tick(&mut self.links, &mut self.output).into()
    }

    fn advance(&mut self, ticks: u64) -> Advanced<HeadReply> {
        self.head
            .advance(&mut self.links, &mut self.output, ticks)
            .into()
    }

    fn ticks_until(&self) -> u64 {
        self.head.ticks_until(&self.links).into()
    }

    fn state(&self) -> Head {
        self.head
    }

    fn set_state(&mut self, state: &Head) {
        self.head = *state;
    }

    fn links(&self) -> usize {
        self.links.len()
    }

    fn link(&self, place: usize) -> Link {
        self.links[place]
    }

    fn set_link(&mut self, place: usize, link: &Link) {
        self.links[place] = *link;
    }

    fn output(&self) -> &[u8] {
        &self.output
    }
}

impl BoxCore for FloorBox {
    fn fresh(&mut self, address: Address) -> BoxReply {
        let (fresh, answer) = FloorBox::fresh(address);
        *self = fresh;
        answer.into()
    }

    fn register(&mut self) -> BoxReply {
        FloorBox::register(self).into()
    }

    fn deregister(&mut self) -> BoxReply {
        FloorBox::deregister(self).into()
    }

    fn report(&mut self, number: u8, sets: &[u8]) -> BoxReply {
        FloorBox::report(self, number, sets).into()
    }

    fn hear(&mut self, frame: &[u8], random: u32) -> BoxReply {
        frame::read(frame)
            .and_then(|message| FloorBox::hear(self, &message, random))
            .into()
    }

    fn tick(&mut self) -> BoxReply {
        FloorBox::tick(self).into()
    }

    fn advance(&mut self, ticks: u64) -> Advanced<BoxReply> {
        FloorBox::advance(self, ticks).into()
    }

    fn ticks_until(&self) -> u64 {
        FloorBox::ticks_until(self).into()
    }

    fn next(&self, control: usize, data: usize) -> Next {
        FloorBox::next(self, control, data)
    }

    fn state(&self) -> FloorBox {
        *self
    }

    fn set_state(&mut self, state: &FloorBox) {
        *self = *state;
    }
}

impl From<Result<HeadAnswer, Refusal>> for HeadReply {
    fn from(answer: Result<HeadAnswer, Refusal>) -> HeadReply {
        match answer {
            Ok(HeadAnswer { frames, notice }) => HeadReply {
                number: 0,
                frames,
                notice,
            },
            Err(refusal) => HeadReply::refused(refusal.number()),
        }
    }
}

impl From<Result<BoxAnswer, Refusal>> for BoxReply {
    fn from(answer: Result<BoxAnswer, Refusal>) -> BoxReply {
        match answer {
            // Most ticks answer nothing, and making an empty reply is cheaper
            // than moving an empty answer.
            Ok(answer) if answer == BoxAnswer::default() => BoxReply::default(),
            Ok(answer) => BoxReply {
                number: 0,
                drift: answer.drift,
                frames: answer.frames,
                notices: answer.notices,
            },
            Err(refusal) => BoxReply::refused(refusal.number()),
        }
    }
}

impl<A, R> From<Result<plain::Advanced<A>, Refusal>> for Advanced<R>
where
    R: From<Result<A, Refusal>>,
{
    fn from(advanced: Result<plain::Advanced<A>, Refusal>) -> Advanced<R> {
        Advanced {
            made: advanced.as_ref().map_or(0, |advanced| advanced.made.into()),
            reply: advanced.map(|advanced| advanced.answer).into(),
        }
    }
}
