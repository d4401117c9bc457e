//! A floor: its box, its client, and the frames that wait for a window.

use super::fibre::{Fibre, Sent};
use super::queues::Queues;
use super::record::Record;
use crustnewt_core::{BoxCore, BoxReply, Core};
use plain::frame::{RequestFlag, FRAME_OCTETS};
use plain::numbers::{CONTROL_FRAME, WAIT};
use plain::{Address, Body, BoxState, Frame, Next};
use std::collections::VecDeque;

/// Ticks after which a waiting frame has become useless: the head waits no
/// longer for a REGISTER_ACK.
const STALE: u64 = WAIT as u64;

/// A floor.
pub(super) struct Floor {
    pub(super) number: u32,
    pub(super) address: Address,
    pub(super) floor_box: Box<dyn BoxCore>,
    pub(super) cut: bool,
    pub(super) record: Record,
    /// Frames handed out, with the tick of that, until a window takes them.
    waiting: VecDeque<(u64, Frame)>,
    /// Tick at which the frame being sent is out.
    busy_until: u64,
    /// Longest time from a frame's hand-out to its sending.
    pub(super) longest_wait: u64,
    /// Data frames. They fill whether or not the box is registered.
    pub(super) queues: Queues,
    window: Option<Window>,
}

/// A window that is open.
#[derive(Clone, Copy)]
struct Window {
    /// The tick at which it opened.
    since: u64,
    /// Quanta that control frames took of it.
    taken: u64,
}

impl Floor {
    pub(super) fn new(core: &dyn Core, number: u32, queues: Queues) -> Floor {
        let address = Address(0x0200_0000_0000 + u64::from(number));
        let mut floor_box = core.floor_box();
        floor_box.fresh(address);
        Floor {
            number,
            address,
            floor_box,
            cut: false,
            record: Record::default(),
            waiting: VecDeque::new(),
            busy_until: 0,
            longest_wait: 0,
            queues,
            window: None,
        }
    }

    pub(super) fn hand_out(&mut self, now: u64, frame: Frame) {
        self.waiting.push_back((now, frame));
    }

    /// Throws away the control frames that wait: a box that has left gets no
    /// window for them, and the next discovery window has room for its request
    /// alone. A window that was open is over (R96).
    pub(super) fn throw_away(&mut self) {
        self.waiting.clear();
        self.window = None;
    }

    /// Its client tells how long its queues are.
    pub(super) fn report(&mut self, now: u64) -> BoxReply {
        self.queues.fill(now);
        self.floor_box.report(1, &self.queues.set())
    }

    pub(super) fn open_window(&mut self, now: u64) {
        self.queues.fill(now);
        let (since, taken) = (now, 0);
        self.window = Some(Window { since, taken });
    }

    /// Data that waited has gone in what control frames left of the window: they
    /// go first (R140, R141).
    pub(super) fn close_window(&mut self, now: u64) {
        if let Some(Window { since, taken }) = self.window.take() {
            self.queues.drain(now - since - taken);
        }
    }

    /// The tick after now at which a waiting frame may be sent next, if no
    /// other is handed out and no window opens before. A frame that didn't fit
    /// when the fibre was free won't fit what is left of the window later.
    pub(super) fn next_sending(&self, now: u64) -> u64 {
        if self.waiting.is_empty() || self.busy_until <= now {
            return u64::MAX;
        }
        self.busy_until
    }

    /// Sends the next waiting frame if the transmitter lets it; a frame lost
    /// on the way is handed back.
    pub(super) fn send(
        &mut self,
        now: u64,
        index: usize,
        core: &dyn Core,
        fibre: &mut Fibre,
    ) -> Option<Frame> {
        while let Some((since, frame)) = self.sendable(now) {
            self.waiting.pop_front();
            if now - since > STALE {
                continue;
            }
            self.longest_wait = self.longest_wait.max(now - since);
            self.busy_until = now + u64::from(CONTROL_FRAME);
            if let Some(window) = &mut self.window {
                window.taken += u64::from(CONTROL_FRAME);
            }
            let sent = Sent {
                arrives: now,
                floor: index,
                link: self.link_for(core, &frame),
                frame,
            };
            return (!fibre.send_up(now, sent, self.cut)).then_some(frame);
        }
        None
    }

    fn sendable(&self, now: u64) -> Option<(u64, Frame)> {
        let free = now >= self.busy_until;
        let front = self.waiting.front().copied();
        front.filter(|_| free && self.floor_box.next(FRAME_OCTETS, 0) == Next::Control)
    }

    /// A newcomer's request carries no link yet.
    fn link_for(&self, core: &dyn Core, frame: &Frame) -> u64 {
        match core.read(frame).map(|message| message.body) {
            Ok(Body::RegisterReq {
                flag: RequestFlag::Register,
                ..
            }) => 0,
            _ => u64::from(self.floor_box.state().port),
        }
    }

    pub(super) fn state(&self) -> BoxState {
        self.floor_box.state().state
    }
}
