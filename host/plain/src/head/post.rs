//! Frames on their way into the lent output, and the steps that send them.

use super::{register, Answer, Head, HeadAnswer, HeadNotice};
use crate::address::Address;
use crate::clock::Count;
use crate::frame::{self, Body, Gate, Message, RegisterFlag, FRAME_OCTETS};
use crate::link::{Link, LinkState};
use crate::numbers::{run_out, PERIOD};

/// Packs frames into the output from its start; the rest stays as it was.
pub(super) struct Post<'a> {
    from: Address,
    stamp: Count,
    output: &'a mut [u8],
    frames: usize,
}

impl<'a> Post<'a> {
    pub(super) fn new(head: &Head, output: &'a mut [u8]) -> Post<'a> {
        Post {
            from: head.address,
            stamp: head.count,
            output,
            frames: 0,
        }
    }

    /// The answer of a call that sends one frame and tells nothing.
    pub(super) fn one(head: &Head, output: &'a mut [u8], to: Address, body: Body) -> Answer {
        let mut post = Post::new(head, output);
        post.send(to, body);
        Ok(post.answer(None))
    }

    /// Sends one frame. Test 12 has left room for one frame a link, and no
    /// call sends more.
    pub(super) fn send(&mut self, to: Address, body: Body) {
        let octets = frame::octets(&Message {
            to,
            from: self.from,
            stamp: self.stamp,
            body,
        });
        let at = FRAME_OCTETS * self.frames;
        self.output[at..at + FRAME_OCTETS].copy_from_slice(&octets);
        self.frames += 1;
    }

    pub(super) fn answer(self, notice: Option<HeadNotice>) -> HeadAnswer {
        HeadAnswer {
            frames: self.frames,
            notice,
        }
    }

    /// Drops whoever holds the link, for whatever reason (R186).
    pub(super) fn drop_link(&mut self, place: usize, link: &mut Link) {
        let body = register(place, RegisterFlag::Deregister, 0, 0);
        self.send(link.address, body);
        *link = Link::IDLE;
    }

    pub(super) fn send_empty_gate(&mut self, link: &Link) {
        self.send(link.address, Body::Gate(Gate::empty()));
    }

    /// A tick of one link. Both timers of a registered one run, and dropping
    /// it comes ahead of a periodic GATE.
    pub(super) fn run_link(&mut self, place: usize, link: &mut Link) {
        match link.state {
            LinkState::Idle => {}
            LinkState::Waiting => {
                if run_out(&mut link.wait) {
                    self.drop_link(place, link);
                }
            }
            LinkState::Registered => {
                let unheard = run_out(&mut link.watchdog);
                let due = run_out(&mut link.periodic);
                if unheard {
                    self.drop_link(place, link);
                } else if due {
                    self.send_empty_gate(link);
                    link.periodic = PERIOD;
                }
            }
        }
    }
}
