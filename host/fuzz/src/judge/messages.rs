//! What the words of a message say, read here by the header alone.

use super::reports::{sets_of, SETS_WORDS};
use super::states::{grant, half};
use crustnewt::sys::MESSAGE_WORDS;
use plain::frame::{AckFlag, RegisterFlag, RequestFlag};
use plain::{Address, Body, Count, Gate, Granted, Message};

/// Whether a source is in range, as the header has it: not zero, no group's,
/// and of 48 bits. What the plain program reads is held against it too.
pub fn is_source(address: u64) -> bool {
    let group = address >> 40 & 1 == 1;
    address != 0 && !group && address >> 48 == 0
}

/// Words of a body.
const BODY: usize = MESSAGE_WORDS - 4;

/// The message of these words; `None` where they are no message's.
pub fn message_of(words: &[u64]) -> Option<Message> {
    let said: [u64; BODY] = words[4..MESSAGE_WORDS].try_into().ok()?;
    let held = match words[3] {
        0 => BODY,
        1 | 5 => 3,
        2 => SETS_WORDS,
        3 => 2,
        4 => 4,
        _ => return None,
    };
    let body = body(words[3], said).filter(|_| said[held..].iter().all(|&word| word == 0));
    Some(Message {
        to: Address(words[0]),
        from: Address(words[1]),
        stamp: Count(half(words[2])?),
        body: body?,
    })
}

/// What its words say; those that it doesn't hold aren't looked at.
fn body(kind: u64, said: [u64; BODY]) -> Option<Body> {
    let (port, sync) = (u16::try_from(said[1]), half(said[2]));
    Some(match kind {
        0 => return gate(said),
        1 => Body::Discovery {
            granted: Granted {
                grant: grant(said[2]),
                force: flag(said[1], [(0, false), (1, true)])?,
            },
            sync: half(said[0])?,
        },
        2 => Body::Report(sets_of(said.first_chunk()?)),
        3 => Body::RegisterReq {
            flag: flag(
                said[0],
                [(1, RequestFlag::Register), (3, RequestFlag::Deregister)],
            )?,
            pending: u8::try_from(said[1]).ok()?,
        },
        4 => Body::Register {
            flag: flag(said[0], REGISTER_FLAGS)?,
            port: port.ok()?,
            sync: sync?,
            pending: u8::try_from(said[3]).ok()?,
        },
        5 => Body::RegisterAck {
            flag: flag(said[0], [(0, AckFlag::Nack), (1, AckFlag::Ack)])?,
            port: port.ok()?,
            sync: sync?,
        },
        _ => return None,
    })
}

const REGISTER_FLAGS: [(u64, RegisterFlag); 4] = [
    (1, RegisterFlag::Reregister),
    (2, RegisterFlag::Deregister),
    (3, RegisterFlag::Ack),
    (4, RegisterFlag::Nack),
];

/// The flag of this number.
fn flag<T: Copy, const FLAGS: usize>(word: u64, flags: [(u64, T); FLAGS]) -> Option<T> {
    let (_, flag) = flags.into_iter().find(|(number, _)| *number == word)?;
    Some(flag)
}

/// Of how many grants, force bits and four places.
fn gate(said: [u64; BODY]) -> Option<Body> {
    let [number, force, grants @ ..] = said;
    let (held, behind) = grants.split_at_checked(usize::try_from(number).ok()?)?;
    let granted = |(place, &word): (usize, &u64)| Granted {
        grant: grant(word),
        force: force >> place & 1 == 1,
    };
    let held: Vec<Granted> = held.iter().enumerate().map(granted).collect();
    let nothing_behind = behind.iter().all(|&word| word == 0) && force >> number == 0;
    Gate::of(&held).filter(|_| nothing_behind).map(Body::Gate)
}
