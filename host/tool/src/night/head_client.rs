//! The head's client: a plain one.

use crustnewt_core::{HeadCore, HeadReply};
use plain::numbers::{needed_length, CONTROL_FRAME};
use plain::{Address, Count, Gate, GateRequest, Grant, Link, LinkState, Newcomer, OpenWindow};

/// Ticks between discovery windows: a tenth of a second.
const BETWEEN_WINDOWS: u64 = 6_250_000;
/// Ticks in which every link is gated once: 16 ms.
const ROUND: u64 = 1_000_000;
/// Ticks from a GATE's sending to its grant's start.
const AHEAD: u32 = 1000;
/// Sync time that the head needs.
const SYNC: u32 = 100;
/// Length of the discovery grant.
const DISCOVERY: u32 = 16_384;
/// Control frames that a normal grant has room for.
const FRAMES_PER_GRANT: u32 = 4;
/// Quanta of data that it has room for besides.
pub(super) const DATA_PER_GRANT: u32 = 1024;
/// Ticks until a link is asked for its queues again: 64 ms. A box that has
/// nobody to ask it tells every 50 ms that it is there, and no more.
const BETWEEN_REPORTS: u64 = 4 * ROUND;

/// When the client does what.
pub(super) struct HeadClient {
    delay: u32,
    between_gates: u64,
    next_window: u64,
    next_gate: u64,
    turn: usize,
    /// When each link is to be asked for its queues.
    next_report: Vec<u64>,
}

impl HeadClient {
    pub(super) fn new(boxes: usize, delay: u64) -> HeadClient {
        HeadClient {
            delay: delay as u32,
            between_gates: ROUND / boxes as u64,
            next_window: 0,
            next_gate: ROUND,
            turn: 0,
            next_report: vec![0; boxes],
        }
    }

    /// The tick at which it does something next.
    pub(super) fn next_action(&self) -> u64 {
        self.next_window.min(self.next_gate)
    }

    /// Opens a discovery window when it is time to.
    pub(super) fn open_window(&mut self, now: u64, head: &mut dyn HeadCore) -> Option<HeadReply> {
        if now < self.next_window {
            return None;
        }
        self.next_window = now + BETWEEN_WINDOWS;
        let request = OpenWindow {
            grant: Grant {
                start: ahead(head),
                length: DISCOVERY,
            },
            sync: SYNC,
            // A request comes back two fibre's lengths after its sending.
            window: DISCOVERY + 2 * self.delay,
        };
        Some(head.open_window(&request))
    }

    /// Gates the next held link when it is time to.
    pub(super) fn gate_in_turn(&mut self, now: u64, head: &mut dyn HeadCore) -> Option<HeadReply> {
        if now < self.next_gate {
            return None;
        }
        self.next_gate = now + self.between_gates;
        let links = head.links();
        let turns = (0..links).map(|step| (self.turn + step) % links);
        let place = turns
            .into_iter()
            .find(|&place| head.link(place).is_held())?;
        self.turn = place + 1;
        Some(self.gate(now, head, place))
    }

    /// Gates a newcomer at once, so that it can acknowledge, and tell of its
    /// queues.
    pub(super) fn welcome(&mut self, now: u64, head: &mut dyn HeadCore, place: usize) -> HeadReply {
        self.next_report[place] = now;
        self.gate(now, head, place)
    }

    /// Gates the link at `place` with one grant. Its force bit asks for a REPORT
    /// when it is time for one.
    fn gate(&mut self, now: u64, head: &mut dyn HeadCore, place: usize) -> HeadReply {
        let force = now >= self.next_report[place];
        if force {
            self.next_report[place] = now + BETWEEN_REPORTS;
        }
        let control_frames = (FRAMES_PER_GRANT - 1) * CONTROL_FRAME;
        let mut grants = [Grant::default(); Gate::MOST];
        grants[0] = Grant {
            start: ahead(head),
            length: needed_length(SYNC) + control_frames + DATA_PER_GRANT,
        };
        head.gate(&GateRequest {
            link: place as u64 + 1,
            force: force.into(),
            asked: 1,
            grants,
        })
    }
}

/// Admits a newcomer.
pub(super) fn admit(head: &mut dyn HeadCore, address: Address, pending: u8) -> HeadReply {
    head.admit(&Newcomer {
        address,
        pending,
        sync: SYNC,
    })
}

/// The place of an address's link, and the link.
pub(super) fn link_of(head: &dyn HeadCore, address: Address) -> Option<(usize, Link)> {
    (0..head.links())
        .map(|place| (place, head.link(place)))
        .find(|(_, link)| link.address == address)
}

/// How the head holds an address.
pub(super) fn link_state(head: &dyn HeadCore, address: Address) -> LinkState {
    link_of(head, address).map_or(LinkState::Idle, |(_, link)| link.state)
}

fn ahead(head: &dyn HeadCore) -> Count {
    Count(head.state().count.0.wrapping_add(AHEAD))
}
