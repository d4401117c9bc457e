//! Messages that the head hears.

use super::{held_place, Answer, Head, HeadAnswer, HeadNotice, HeadNoticeKind, Post, Window};
use crate::address::Address;
use crate::frame::{AckFlag, Body, Message, RequestFlag};
use crate::link::{Link, LinkState};
use crate::numbers::WATCHDOG;
use crate::queue_sets::QueueSets;
use crate::refusal::{require, Refusal};

impl Head {
    /// A message arrives on a link, or on link 0 from whom no link is given
    /// yet.
    pub fn hear(
        &mut self,
        links: &mut [Link],
        output: &mut [u8],
        link: u64,
        message: &Message,
    ) -> Answer {
        self.require_ready(links, output)?;
        require(goes_up(&message.body), Refusal::WrongWay)?;
        if is_newcomers(&message.body) {
            return self.hear_newcomer(link, message);
        }
        let place = held_place(links, link)?;
        let addressed = self.is_addressed(message) && message.from == links[place].address;
        require(addressed, Refusal::NotMine)?;
        require(message.in_range(), Refusal::OutOfRange)?;
        let mut post = Post::new(self, output);
        let heard = post.act_on(place, &mut links[place], &message.body);
        let notice = heard.map(|kind| self.notice(kind, link, message));
        Ok(post.answer(notice))
    }

    /// A request to register: on link 0 only, inside the window only.
    fn hear_newcomer(&self, link: u64, message: &Message) -> Answer {
        require(link == 0, Refusal::NoSuchLink)?;
        let inside = matches!(self.window, Window::Inside { .. });
        require(inside, Refusal::NotNow)?;
        require(self.is_addressed(message), Refusal::NotMine)?;
        require(message.in_range(), Refusal::OutOfRange)?;
        let notice = self.notice(HeadNoticeKind::Request, 0, message);
        Ok(HeadAnswer {
            frames: 0,
            notice: Some(notice),
        })
    }

    fn is_addressed(&self, message: &Message) -> bool {
        message.to == self.address || message.to == Address::EVERYONE
    }

    fn notice(&self, kind: HeadNoticeKind, link: u64, message: &Message) -> HeadNotice {
        HeadNotice {
            kind,
            link,
            trip: self.count.round_trip(message.stamp),
            sets: match message.body {
                Body::Report(sets) => sets,
                _ => QueueSets::NONE,
            },
        }
    }
}

impl Post<'_> {
    /// The step of an accepted message on a held link, and what it tells.
    fn act_on(&mut self, place: usize, link: &mut Link, body: &Body) -> Option<HeadNoticeKind> {
        match (link.state, body) {
            (LinkState::Waiting, Body::RegisterAck { flag, .. }) => match flag {
                AckFlag::Ack => {
                    *link = Link::registered(link.address);
                    self.send_empty_gate(link);
                    Some(HeadNoticeKind::Registered)
                }
                AckFlag::Nack => {
                    self.drop_link(place, link);
                    Some(HeadNoticeKind::Dropped)
                }
            },
            (LinkState::Registered, Body::RegisterReq { .. }) => {
                self.drop_link(place, link);
                Some(HeadNoticeKind::Dropped)
            }
            (LinkState::Registered, Body::Report(_)) => {
                link.watchdog = WATCHDOG;
                Some(HeadNoticeKind::Report)
            }
            _ => None,
        }
    }
}

/// Whether the message goes from box to head.
fn goes_up(body: &Body) -> bool {
    match body {
        Body::Report(_) | Body::RegisterReq { .. } | Body::RegisterAck { .. } => true,
        Body::Gate(_) | Body::Discovery { .. } | Body::Register { .. } => false,
    }
}

/// Whether this is REGISTER_REQ flag 1.
fn is_newcomers(body: &Body) -> bool {
    matches!(
        body,
        Body::RegisterReq {
            flag: RequestFlag::Register,
            ..
        }
    )
}
