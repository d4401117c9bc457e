//! The reader.

use super::*;
use crate::refusal::{require, Refusal};

/// Reads a frame; tests 1, 2, 3, 4 in this order.
pub fn read(octets: &[u8]) -> Result<Message, Refusal> {
    let frame: &Frame = octets.try_into().map_err(|_| Refusal::NotSixtyOctets)?;
    require(u16_at(frame, 12) == CONTROL_TYPE, Refusal::NotControl)?;
    let body = match u16_at(frame, 14) {
        GATE => read_gate(frame)?,
        REPORT => read_report(frame)?,
        REGISTER_REQ => read_register_req(frame)?,
        REGISTER => read_register(frame)?,
        REGISTER_ACK => read_register_ack(frame)?,
        _ => return Err(Refusal::UnknownOpcode),
    };
    let from = address_at(frame, 6);
    require(from.is_individual(), Refusal::OutOfRange)?;
    Ok(Message {
        to: address_at(frame, 0),
        from,
        stamp: count_at(frame, 16),
        body,
    })
}

fn read_gate(frame: &Frame) -> Result<Body, Refusal> {
    let first = frame[BODY_AT];
    let grants = usize::from(first & COUNT_BITS);
    let force = first >> FORCE_SHIFT;
    let forced_in_place = force >> grants.min(Gate::MOST) == 0;
    require(grants <= Gate::MOST && forced_in_place, Refusal::OutOfRange)?;
    if first & DISCOVERY_BIT != 0 {
        require(grants == 1, Refusal::OutOfRange)?;
        return Ok(Body::Discovery {
            granted: granted_at(frame, 0, force),
            sync: u32::from(u16_at(frame, BODY_AT + 7)),
        });
    }
    let mut gate = Gate::empty();
    for place in 0..grants {
        gate.grants.push(granted_at(frame, place, force));
    }
    Ok(Body::Gate(gate))
}

fn read_report(frame: &Frame) -> Result<Body, Refusal> {
    let sets = QueueSets::leading(frame[BODY_AT], &frame[BODY_AT + 1..]);
    Ok(Body::Report(sets.ok_or(Refusal::OutOfRange)?))
}

fn read_register_req(frame: &Frame) -> Result<Body, Refusal> {
    let flag = match frame[BODY_AT] {
        1 => RequestFlag::Register,
        3 => RequestFlag::Deregister,
        _ => return Err(Refusal::OutOfRange),
    };
    Ok(Body::RegisterReq {
        flag,
        pending: frame[BODY_AT + 1],
    })
}

fn read_register(frame: &Frame) -> Result<Body, Refusal> {
    let flag = match frame[BODY_AT + 2] {
        1 => RegisterFlag::Reregister,
        2 => RegisterFlag::Deregister,
        3 => RegisterFlag::Ack,
        4 => RegisterFlag::Nack,
        _ => return Err(Refusal::OutOfRange),
    };
    Ok(Body::Register {
        port: u16_at(frame, BODY_AT),
        flag,
        sync: u32::from(u16_at(frame, BODY_AT + 3)),
        pending: frame[BODY_AT + 5],
    })
}

fn read_register_ack(frame: &Frame) -> Result<Body, Refusal> {
    let flag = match frame[BODY_AT] {
        0 => AckFlag::Nack,
        1 => AckFlag::Ack,
        _ => return Err(Refusal::OutOfRange),
    };
    Ok(Body::RegisterAck {
        flag,
        port: u16_at(frame, BODY_AT + 1),
        sync: u32::from(u16_at(frame, BODY_AT + 3)),
    })
}

/// The GATE's grant at `place`, from 0: start 4 and length 2 octets.
fn granted_at(frame: &Frame, place: usize, force: u8) -> Granted {
    let at = BODY_AT + 1 + 6 * place;
    granted(
        count_at(frame, at),
        u32::from(u16_at(frame, at + 4)),
        force >> place & 1 == 1,
    )
}

fn u16_at(frame: &Frame, at: usize) -> u16 {
    u16::from_be_bytes([frame[at], frame[at + 1]])
}

fn count_at(frame: &Frame, at: usize) -> Count {
    let octets = [frame[at], frame[at + 1], frame[at + 2], frame[at + 3]];
    Count(u32::from_be_bytes(octets))
}

fn address_at(frame: &Frame, at: usize) -> Address {
    let [a, b, c, d, e, f] = std::array::from_fn(|octet| frame[at + octet]);
    Address::from_octets([a, b, c, d, e, f])
}
