//! Frames by themselves: messages, reader, writer.

use crate::queue_sets::QueueSets;
use crate::refusal::Refusal;
use crate::sys::{self, FRAME_OCTETS, MESSAGE_WORDS};
use crate::up_to::UpTo;
use crate::word::{bit, fit, sure};

/// Sixty octets as they go over the fibre, without check sequence.
pub type Frame = [u8; FRAME_OCTETS];

/// A control message, as read from a frame or to be written into one.
///
/// It holds the words of the C face, and reading and writing fill what they are
/// lent: to move what was read would take longer than to read it.
/// [`Message::body`] makes a [`Body`] of the words.
///
/// ```
/// # fn main() -> Result<(), crustnewt::Refusal> {
/// use crustnewt::{Body, Message, QueueSets};
///
/// let report = Body::Report(QueueSets::NONE);
/// let mut frame = [0; 60];
/// Message::new(0x0180_C200_0001, 0x0200_0000_0031, 7, &report).write(&mut frame)?;
/// let mut message = Message::default();
/// message.read(&frame)?;
/// assert_eq!((message.stamp(), message.body()), (7, report));
/// # Ok(())
/// # }
/// ```
#[derive(Clone, Copy, Debug, PartialEq, Eq)]
pub struct Message {
    words: [u64; MESSAGE_WORDS],
}

/// A start and a length: when a box may light its laser, and for how long.
#[derive(Clone, Copy, Debug, Default, PartialEq, Eq)]
pub struct Grant {
    /// The count at which the laser goes on.
    pub start: u32,
    /// Quanta from laser on to dark; 16 bits on the wire.
    pub length: u32,
}

/// A grant as a GATE carries it, with its force report bit.
#[derive(Clone, Copy, Debug, Default, PartialEq, Eq)]
pub struct Granted {
    /// Start and length.
    pub grant: Grant,
    /// Whether a report is forced in it.
    pub force: bool,
}

/// What a control message says.
#[derive(Clone, Copy, Debug, PartialEq, Eq)]
pub enum Body {
    /// A normal GATE.
    Gate(UpTo<Granted, MOST_GRANTS>),
    /// A discovery GATE.
    Discovery {
        /// Its one grant.
        granted: Granted,
        /// Sync time that the head needs; 16 bits on the wire.
        sync: u32,
    },
    /// A REPORT with its queue sets.
    Report(QueueSets),
    /// A box asks to register or tells that it leaves.
    RegisterReq {
        /// Which of the two.
        flag: RequestFlag,
        /// Pending grants that the box can hold.
        pending: u8,
    },
    /// The head's answer to a box.
    Register {
        /// What is decided.
        flag: RegisterFlag,
        /// Assigned port.
        port: u16,
        /// Sync time that the head needs; 16 bits on the wire.
        sync: u32,
        /// Echoed pending grants.
        pending: u8,
    },
    /// The box's answer to a REGISTER.
    RegisterAck {
        /// Whether the box agrees.
        flag: AckFlag,
        /// Echoed port.
        port: u16,
        /// Echoed sync time; 16 bits on the wire.
        sync: u32,
    },
}

/// Flag of a REGISTER_REQ; the value is the octet.
#[derive(Clone, Copy, Debug, PartialEq, Eq)]
pub enum RequestFlag {
    /// The box wants to register.
    Register = 1,
    /// The box leaves.
    Deregister = 3,
}

/// Flag of a REGISTER; the value is the octet.
#[derive(Clone, Copy, Debug, PartialEq, Eq)]
pub enum RegisterFlag {
    /// Register again, without leaving.
    Reregister = 1,
    /// The head drops the box.
    Deregister = 2,
    /// The head takes the box.
    Ack = 3,
    /// The head rejects the box.
    Nack = 4,
}

/// Flag of a REGISTER_ACK; the value is the octet.
#[derive(Clone, Copy, Debug, PartialEq, Eq)]
pub enum AckFlag {
    /// The box doesn't agree.
    Nack = 0,
    /// The box agrees.
    Ack = 1,
}

/// Grants of a GATE.
const MOST_GRANTS: usize = 4;

/// Numbers of the kinds.
const GATE: u64 = 0;
const DISCOVERY: u64 = 1;
const REPORT: u64 = 2;
const REGISTER_REQ: u64 = 3;
const REGISTER: u64 = 4;
const REGISTER_ACK: u64 = 5;

/// Words of a body, behind destination, source, timestamp and kind.
const BODY_WORDS: usize = MESSAGE_WORDS - 4;

impl Message {
    /// A message. Whether its fields are in range is the writer's to say.
    pub fn new(to: u64, from: u64, stamp: u32, body: &Body) -> Message {
        let (kind, [a, b, c, d, e, f]) = body.words();
        Message {
            words: [to, from, stamp.into(), kind, a, b, c, d, e, f],
        }
    }

    /// Reads a frame into it: any octets, of any number. Refused, it is the
    /// [default](Message::default), which has no frame.
    #[inline]
    pub fn read(&mut self, octets: &[u8]) -> Result<(), Refusal> {
        Refusal::judge(sys::read(octets, &mut self.words))
    }

    /// Writes it into a frame; [`Refusal::Range`], and a frame of zeros, where a
    /// field is outside its range. So is a source that is zero, a group's or
    /// above 48 bits, while a destination may be any 48; and so are queue sets
    /// that run past the body, or that something stands behind.
    #[inline]
    pub fn write(&self, frame: &mut Frame) -> Result<(), Refusal> {
        Refusal::judge(sys::write(&self.words, frame))
    }

    /// Destination.
    #[inline]
    pub fn to(&self) -> u64 {
        self.words[0]
    }

    /// Source: of a message that was read, individual and not zero.
    #[inline]
    pub fn from(&self) -> u64 {
        self.words[1]
    }

    /// The sender's count.
    #[inline]
    pub fn stamp(&self) -> u32 {
        self.words[2] as u32
    }

    /// Its words, as the C face has them.
    #[inline]
    pub fn words(&self) -> &[u64; MESSAGE_WORDS] {
        &self.words
    }

    /// What it says.
    pub fn body(&self) -> Body {
        let [_, _, _, kind, a, b, c, d, e, f] = self.words;
        sure(Body::of_words(kind, [a, b, c, d, e, f]))
    }
}

impl Default for Message {
    /// An empty REPORT with every field 0: to be read into, not to be written,
    /// as its source is nobody's.
    #[inline]
    fn default() -> Message {
        Message::new(0, 0, 0, &Body::Report(QueueSets::NONE))
    }
}

impl Body {
    /// Its kind and words.
    fn words(&self) -> (u64, [u64; BODY_WORDS]) {
        match *self {
            Body::Gate(ref grants) => {
                let mut words = [grants.len() as u64, 0, 0, 0, 0, 0];
                for (place, granted) in grants.iter().enumerate() {
                    words[1] |= u64::from(granted.force) << place;
                    words[2 + place] = granted.grant.word();
                }
                (GATE, words)
            }
            Body::Discovery { granted, sync } => {
                let Granted { grant, force } = granted;
                (
                    DISCOVERY,
                    [sync.into(), force.into(), grant.word(), 0, 0, 0],
                )
            }
            Body::Report(ref sets) => {
                let [a, b, c, d, e] = sets.words();
                (REPORT, [a, b, c, d, e, 0])
            }
            Body::RegisterReq { flag, pending } => {
                (REGISTER_REQ, [flag as u64, pending.into(), 0, 0, 0, 0])
            }
            Body::Register {
                flag,
                port,
                sync,
                pending,
            } => {
                let [port, sync, pending] = [port.into(), sync.into(), pending.into()];
                (REGISTER, [flag as u64, port, sync, pending, 0, 0])
            }
            Body::RegisterAck { flag, port, sync } => {
                let [port, sync] = [port.into(), sync.into()];
                (REGISTER_ACK, [flag as u64, port, sync, 0, 0, 0])
            }
        }
    }

    /// What these words say; `None` where they are no body's.
    fn of_words(kind: u64, words: [u64; BODY_WORDS]) -> Option<Body> {
        let [a, b, c, d, e, f] = words;
        let granted = |place: usize, grant| Granted {
            grant: Grant::of_word(grant),
            force: b >> place & 1 == 1,
        };
        Some(match kind {
            GATE => {
                let grants = [granted(0, c), granted(1, d), granted(2, e), granted(3, f)];
                Body::Gate(UpTo::first(fit(a)?, grants)?)
            }
            DISCOVERY => Body::Discovery {
                granted: Granted {
                    grant: Grant::of_word(c),
                    force: bit(b)?,
                },
                sync: fit(a)?,
            },
            REPORT => Body::Report(QueueSets::of_words([a, b, c, d, e])),
            REGISTER_REQ => Body::RegisterReq {
                flag: RequestFlag::of_word(a)?,
                pending: fit(b)?,
            },
            REGISTER => Body::Register {
                flag: RegisterFlag::of_word(a)?,
                port: fit(b)?,
                sync: fit(c)?,
                pending: fit(d)?,
            },
            REGISTER_ACK => Body::RegisterAck {
                flag: AckFlag::of_word(a)?,
                port: fit(b)?,
                sync: fit(c)?,
            },
            _ => return None,
        })
    }
}

impl RequestFlag {
    fn of_word(word: u64) -> Option<RequestFlag> {
        Some(match word {
            1 => RequestFlag::Register,
            3 => RequestFlag::Deregister,
            _ => return None,
        })
    }
}

impl RegisterFlag {
    fn of_word(word: u64) -> Option<RegisterFlag> {
        Some(match word {
            1 => RegisterFlag::Reregister,
            2 => RegisterFlag::Deregister,
            3 => RegisterFlag::Ack,
            4 => RegisterFlag::Nack,
            _ => return None,
        })
    }
}

impl AckFlag {
    fn of_word(word: u64) -> Option<AckFlag> {
        Some(match word {
            0 => AckFlag::Nack,
            1 => AckFlag::Ack,
            _ => return None,
        })
    }
}
