//! Messages of every kind, and frames whole and damaged.

use super::queue_sets;
use super::values::{address, count, length_for, near, other_source, quanta, sync, BOX, HEAD};
use crustnewt_tool::dice::Dice;
use plain::frame::{write, AckFlag, RegisterFlag, RequestFlag};
use plain::{Address, Body, Count, Frame, Gate, Grant, Granted, LinkState, Message, QueueSet};

/// The party that a message is meant for.
#[derive(Clone, Copy, PartialEq, Eq)]
pub(crate) enum For {
    Head,
    Box,
}

/// A frame for a party at this count: mostly one that it can act on, some
/// that go astray, some damaged.
pub(crate) fn frame_for(dice: &mut Dice, party: For, now: Count, from: Address) -> Vec<u8> {
    let body = if dice.chance(60) {
        any_body(dice, now)
    } else {
        body_for(dice, party, now)
    };
    frame_of(dice, party, now, from, body)
}

/// A frame for a party with this to say, with the same mishaps.
pub(crate) fn frame_of(
    dice: &mut Dice,
    party: For,
    now: Count,
    from: Address,
    body: Body,
) -> Vec<u8> {
    let mut message = Message {
        to: destination(dice, party, &body),
        from,
        stamp: if dice.chance(500) {
            now
        } else {
            near(dice, now)
        },
        body,
    };
    if dice.chance(100) {
        message.from = other_source(dice, from);
    }
    let frame = octets(&message).to_vec();
    match dice.below(100) {
        0..=5 => damaged(dice, frame),
        6..=19 => with_pad(dice, &message.body, frame),
        _ => frame,
    }
}

/// A frame of any kind, whole or damaged.
pub(crate) fn any_frame(dice: &mut Dice) -> Vec<u8> {
    let message = any_message(dice);
    let frame = octets(&message).to_vec();
    match dice.below(3) {
        0 => frame,
        1 => with_pad(dice, &message.body, frame),
        _ => damaged(dice, frame),
    }
}

/// A message of any kind, in range but for the source of some.
pub(crate) fn any_message(dice: &mut Dice) -> Message {
    let now = count(dice);
    let usual = Some(address(dice)).filter(|party| party.is_individual());
    let usual = usual.unwrap_or(BOX);
    Message {
        to: address(dice),
        from: if dice.chance(150) {
            other_source(dice, usual)
        } else {
            usual
        },
        stamp: near(dice, now),
        body: any_body(dice, now),
    }
}

fn destination(dice: &mut Dice, party: For, body: &Body) -> Address {
    let to_all = party == For::Head || matches!(body, Body::Discovery { .. });
    match (dice.below(20), party) {
        (0, _) => address(dice),
        (1, _) => Address::EVERYONE,
        (2..=10, _) if to_all => Address::EVERYONE,
        (_, For::Head) => HEAD,
        (_, For::Box) => BOX,
    }
}

/// What a link in this state, or link 0, is there to hear.
pub(crate) fn fitting(dice: &mut Dice, link: Option<LinkState>) -> Body {
    let request = |flag| Body::RegisterReq { flag, pending: 16 };
    match link {
        None | Some(LinkState::Idle) => request(RequestFlag::Register),
        Some(LinkState::Waiting) => Body::RegisterAck {
            flag: dice.pick(&[AckFlag::Ack, AckFlag::Ack, AckFlag::Nack]),
            port: dice.half() as u16,
            sync: sync(dice),
        },
        Some(LinkState::Registered) => {
            let report = Body::Report(queue_sets::fitting(dice));
            dice.pick(&[report, request(RequestFlag::Deregister)])
        }
    }
}

/// The frame of a message that is in range but for its source, which the
/// writer would refuse: it is put in behind its back.
pub(crate) fn octets(message: &Message) -> Frame {
    let from = HEAD;
    let written = write(&Message { from, ..*message });
    let mut frame = written.expect("all but its source is in range");
    frame[6..12].copy_from_slice(&message.from.0.to_be_bytes()[2..]);
    frame
}

fn any_body(dice: &mut Dice, now: Count) -> Body {
    let party = dice.pick(&[For::Head, For::Box]);
    body_for(dice, party, now)
}

fn body_for(dice: &mut Dice, party: For, now: Count) -> Body {
    match (party, dice.below(4)) {
        (For::Head, 0) => Body::Report(queue_sets::fitting(dice)),
        (For::Head, 1) => Body::RegisterAck {
            flag: dice.pick(&[AckFlag::Ack, AckFlag::Ack, AckFlag::Nack]),
            port: dice.half() as u16,
            sync: sync(dice),
        },
        (For::Head, _) => Body::RegisterReq {
            flag: dice.pick(&[RequestFlag::Register, RequestFlag::Deregister]),
            pending: dice.half() as u8,
        },
        (For::Box, 0) => Body::Register {
            port: dice.half() as u16,
            flag: dice.pick(&[
                RegisterFlag::Reregister,
                RegisterFlag::Deregister,
                RegisterFlag::Ack,
                RegisterFlag::Nack,
            ]),
            sync: sync(dice),
            pending: dice.half() as u8,
        },
        (For::Box, 1) => {
            let (mut granted, sync) = (granted(dice, now), sync(dice));
            granted.grant.length = length_for(dice, sync);
            Body::Discovery { granted, sync }
        }
        (For::Box, _) => Body::Gate(gate(dice, now)),
    }
}

fn gate(dice: &mut Dice, now: Count) -> Gate {
    let grants = dice.below(5);
    let grants: Vec<Granted> = (0..grants).map(|_| granted(dice, now)).collect();
    Gate::of(&grants).unwrap_or_default()
}

pub(crate) fn granted(dice: &mut Dice, now: Count) -> Granted {
    Granted {
        grant: Grant {
            start: near(dice, now),
            length: quanta(dice),
        },
        force: dice.chance(300),
    }
}

/// The frame with something wrong, or nothing that counts.
fn damaged(dice: &mut Dice, mut frame: Vec<u8>) -> Vec<u8> {
    match dice.below(9) {
        0 => frame.truncate(dice.below(60) as usize),
        1 => frame.push(dice.half() as u8),
        2 => frame = (0..60).map(|_| dice.half() as u8).collect(),
        3 => spoil(dice, &mut frame, 12, 14),
        4 => spoil(dice, &mut frame, 14, 16),
        5 => frame[20] = dice.half() as u8,
        6 => spoil(dice, &mut frame, 20, 28),
        7 => report_anything(dice, &mut frame),
        _ => spoil(dice, &mut frame, 0, 60),
    }
    frame
}

/// Flips one bit between two places.
fn spoil(dice: &mut Dice, frame: &mut [u8], low: u64, high: u64) {
    let at = low + dice.below(high - low);
    frame[at as usize] ^= 1 << dice.below(8);
}

/// Makes it a REPORT of any body.
fn report_anything(dice: &mut Dice, frame: &mut [u8]) {
    frame[14..16].copy_from_slice(&[0, 3]);
    frame[20..].copy_from_slice(&queue_sets::body(dice));
}

/// The frame with its pad filled: what is behind the sets of a REPORT, and
/// otherwise the last octets, which are always pad.
fn with_pad(dice: &mut Dice, body: &Body, mut frame: Vec<u8>) -> Vec<u8> {
    let pad = match body {
        Body::Report(sets) => {
            let sets: Vec<QueueSet> = sets.iter().collect();
            21 + queue_sets::octets(&sets).len()
        }
        _ => 45,
    };
    for octet in frame.iter_mut().skip(pad) {
        *octet = dice.half() as u8;
    }
    frame
}
