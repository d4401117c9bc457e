//! The five control frames (R30 to R51).

mod read;
mod write;

use crate::address::Address;
use crate::clock::Count;
use crate::few::Few;
use crate::grants::{Grant, Granted};
use crate::numbers::LONGEST;
use crate::queue_sets::QueueSets;

pub use read::read;
pub(crate) use write::octets;
pub use write::write;

/// Sixty octets as they go over the fibre.
pub type Frame = [u8; FRAME_OCTETS];

/// Octets of every control frame.
pub const FRAME_OCTETS: usize = 60;

const CONTROL_TYPE: u16 = 0x8808;
const GATE: u16 = 2;
const REPORT: u16 = 3;
const REGISTER_REQ: u16 = 4;
const REGISTER: u16 = 5;
const REGISTER_ACK: u16 = 6;
/// The body comes after two addresses, type, opcode and timestamp.
const BODY_AT: usize = 20;
/// Bits of a GATE's first body octet.
const COUNT_BITS: u8 = 0b0000_0111;
const DISCOVERY_BIT: u8 = 0b0000_1000;
const FORCE_SHIFT: u32 = 4;

/// A control message, as read from a frame or to be written into one.
#[derive(Clone, Copy, Debug, PartialEq, Eq)]
pub struct Message {
    /// Destination: anyone, a group or nobody.
    pub to: Address,
    /// Source: out of range unless a party may hold it.
    pub from: Address,
    /// The sender's count.
    pub stamp: Count,
    /// What it says.
    pub body: Body,
}

/// What a control message says.
#[derive(Clone, Copy, Debug, PartialEq, Eq)]
pub enum Body {
    /// A normal GATE.
    Gate(Gate),
    /// A discovery GATE: one grant for whoever isn't registered.
    Discovery {
        /// The grant and its force bit.
        granted: Granted,
        /// Sync time that the head needs.
        sync: u32,
    },
    /// A REPORT and its queue sets.
    Report(QueueSets),
    /// A box asks to register or tells that it leaves.
    RegisterReq {
        /// Which of the two.
        flag: RequestFlag,
        /// Pending grants that the box can hold.
        pending: u8,
    },
    /// The head's answer to a box.
    Register {
        /// Assigned port.
        port: u16,
        /// What is decided.
        flag: RegisterFlag,
        /// Sync time that the head needs.
        sync: u32,
        /// Echoed pending grants.
        pending: u8,
    },
    /// The box's answer to a REGISTER.
    RegisterAck {
        /// Whether the box agrees.
        flag: AckFlag,
        /// Echoed port.
        port: u16,
        /// Echoed sync time.
        sync: u32,
    },
}

/// Up to four grants of a normal GATE.
#[derive(Clone, Copy, Debug, Default, PartialEq, Eq)]
pub struct Gate {
    grants: Few<Granted, { Gate::MOST }>,
}

impl Gate {
    /// Most grants in one GATE.
    pub const MOST: usize = 4;

    /// A GATE without grants.
    pub const fn empty() -> Gate {
        Gate {
            grants: Few::none(),
        }
    }

    /// A GATE of these grants, or `None` where there are more than four.
    pub fn of(grants: &[Granted]) -> Option<Gate> {
        let mut gate = Gate::empty();
        for &granted in grants {
            gate.grants.push(granted);
        }
        (grants.len() <= Gate::MOST).then_some(gate)
    }

    /// The grants in order.
    pub fn iter(&self) -> impl Iterator<Item = Granted> + '_ {
        self.grants.iter().copied()
    }
}

/// Flag of a REGISTER_REQ; the value is the octet.
#[derive(Clone, Copy, Debug, PartialEq, Eq)]
#[repr(u8)]
pub enum RequestFlag {
    /// The box wants to register.
    Register = 1,
    /// The box leaves.
    Deregister = 3,
}

/// Flag of a REGISTER; the value is the octet.
#[derive(Clone, Copy, Debug, PartialEq, Eq)]
#[repr(u8)]
pub enum RegisterFlag {
    /// Register again, without leaving.
    Reregister = 1,
    /// The head drops the box.
    Deregister = 2,
    /// The head takes the box.
    Ack = 3,
    /// The head rejects the box.
    Nack = 4,
}

/// Flag of a REGISTER_ACK; the value is the octet.
#[derive(Clone, Copy, Debug, PartialEq, Eq)]
#[repr(u8)]
pub enum AckFlag {
    /// The box doesn't agree.
    Nack = 0,
    /// The box agrees.
    Ack = 1,
}

impl Message {
    /// Whether addresses, lengths, sync time and queue sets are in range: all
    /// else that a message can hold is. Of the destination its width alone is judged
    /// (R48), of the source whether a party may hold it (R237).
    pub fn in_range(&self) -> bool {
        self.to.in_range() && self.from.is_individual() && self.body.in_range()
    }
}

impl Body {
    fn in_range(&self) -> bool {
        match *self {
            Body::Gate(gate) => gate.iter().all(|granted| granted.grant.in_range()),
            Body::Discovery { granted, sync } => granted.grant.in_range() && sync <= LONGEST,
            Body::Register { sync, .. } | Body::RegisterAck { sync, .. } => sync <= LONGEST,
            Body::Report(sets) => sets.in_range(),
            Body::RegisterReq { .. } => true,
        }
    }
}

/// A grant with its force bit, from its parts.
pub(crate) const fn granted(start: Count, length: u32, force: bool) -> Granted {
    Granted {
        grant: Grant { start, length },
        force,
    }
}
