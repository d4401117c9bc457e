//! What the clients do when head and boxes answer.

use super::{Cause, World};
use crate::night::desk::News;
use crate::night::floor::Floor;
use crate::night::head_client::{admit, link_of};
use crate::night::timeline::ticks;
use crustnewt_core::BoxReply;
use plain::{Body, BoxNotice, Granted, HeadNotice, HeadNoticeKind, Message};
use std::io::{self, Write};

impl<W: Write> World<'_, W> {
    /// What a notice of the head makes its client do.
    pub(super) fn hear_head(
        &mut self,
        index: usize,
        notice: &HeadNotice,
        message: &Message,
    ) -> io::Result<()> {
        match (notice.kind, message.body) {
            (HeadNoticeKind::Request, Body::RegisterReq { pending, .. }) => {
                self.admit(index, pending)
            }
            (HeadNoticeKind::Registered, _) => {
                let (link, trip) = (notice.link, ticks(u64::from(notice.trip)));
                let told =
                    format!("is registered at both ends: link {link}, {trip} from stamp to head");
                self.tell(index, told)
            }
            (HeadNoticeKind::Report, _) => self.hear_report(notice),
            _ => Ok(()),
        }
    }

    /// The desk learns of a floor's queues. Whose they are the link says.
    fn hear_report(&mut self, notice: &HeadNotice) -> io::Result<()> {
        let address = self.head.link(notice.link as usize - 1).address;
        let floor = |floor: &Floor| floor.address == address;
        let Some(index) = self.floors.iter().position(floor) else {
            return Ok(());
        };
        match self.desk.hear(self.now, index, &notice.sets) {
            Some(News::WaitsLongest(floor, told)) => {
                let last = if told.is_of(self.now) {
                    ""
                } else {
                    ", as last told"
                };
                self.tell(floor, format_args!("waits longest: {}{last}", told.queue()))
            }
            Some(News::CaughtUp(floor)) => self.tell(floor, "has caught up, and no floor waits"),
            None => Ok(()),
        }
    }

    /// Admits a newcomer and gates it at once.
    fn admit(&mut self, index: usize, pending: u8) -> io::Result<()> {
        let address = self.floors[index].address;
        let reply = admit(&mut *self.head, address, pending);
        let Some((place, _)) = link_of(&*self.head, address).filter(|_| reply.number == 0) else {
            let number = reply.number;
            return self.tell(
                index,
                format_args!("its request is heard and not granted ({number})"),
            );
        };
        self.tell(
            index,
            format_args!("the head admits it on link {}", place + 1),
        )?;
        self.post(&reply, false)?;
        let reply = self.client.welcome(self.now, &mut *self.head, place);
        self.post(&reply, false)
    }

    /// What a box's answer makes its client do.
    pub(super) fn hear_box(
        &mut self,
        index: usize,
        reply: &BoxReply,
        cause: Cause,
    ) -> io::Result<()> {
        self.stirred |= !reply.is_quiet();
        self.judge(reply.number);
        for frame in reply.frames.iter() {
            self.floors[index].hand_out(self.now, *frame);
        }
        for notice in reply.notices.iter() {
            self.hear_notice(index, notice, cause)?;
        }
        Ok(())
    }

    fn hear_notice(&mut self, index: usize, notice: &BoxNotice, cause: Cause) -> io::Result<()> {
        match notice {
            BoxNotice::Window => self.tell(index, "asks to register"),
            BoxNotice::Registered => self.tell(index, "hears that it is registered"),
            BoxNotice::Retry => self.tell(index, "hears no answer and tries again"),
            BoxNotice::Refused => self.leave(index, "is rejected"),
            BoxNotice::Deregistered if cause == Cause::Tick => {
                self.leave(index, "leaves by itself: no GATE for 62,500,000 ticks")
            }
            BoxNotice::Deregistered => self.leave(index, "hears the head's farewell and leaves"),
            BoxNotice::Grant(Granted { force: true, .. }) => self.report(index),
            BoxNotice::Grant(_) => Ok(()),
            BoxNotice::Open => {
                self.floors[index].open_window(self.now);
                Ok(())
            }
            BoxNotice::Close => {
                self.floors[index].close_window(self.now);
                Ok(())
            }
        }
    }

    /// A grant's force bit asks for a REPORT, which no box sends by itself
    /// (R124).
    fn report(&mut self, index: usize) -> io::Result<()> {
        let reply = self.floors[index].report(self.now);
        self.refused += u64::from(reply.number != 0);
        self.hear_box(index, &reply, Cause::Message)
    }

    /// A box is out, and its client asks to register again.
    fn leave(&mut self, index: usize, told: &str) -> io::Result<()> {
        let floor = &mut self.floors[index];
        floor.record.leave_at(self.now);
        floor.throw_away();
        let number = floor.floor_box.register().number;
        self.judge(number);
        self.tell(index, told)
    }
}
