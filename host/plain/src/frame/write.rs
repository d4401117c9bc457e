//! The writer.

use super::*;
use crate::refusal::{require, Refusal};

/// Writes a message, or refuses one that is out of range (4).
pub fn write(message: &Message) -> Result<Frame, Refusal> {
    require(message.in_range(), Refusal::OutOfRange)?;
    Ok(octets(message))
}

/// The frame of a message known to be in range; its pad is zero.
pub(crate) fn octets(message: &Message) -> Frame {
    let mut frame = [0; FRAME_OCTETS];
    frame[0..6].copy_from_slice(&message.to.octets());
    frame[6..12].copy_from_slice(&message.from.octets());
    put_u16(&mut frame, 12, u32::from(CONTROL_TYPE));
    put_u16(&mut frame, 14, u32::from(opcode(&message.body)));
    put_count(&mut frame, 16, message.stamp);
    put_body(&mut frame, &message.body);
    frame
}

fn opcode(body: &Body) -> u16 {
    match body {
        Body::Gate(_) | Body::Discovery { .. } => GATE,
        Body::Report(_) => REPORT,
        Body::RegisterReq { .. } => REGISTER_REQ,
        Body::Register { .. } => REGISTER,
        Body::RegisterAck { .. } => REGISTER_ACK,
    }
}

fn put_body(frame: &mut Frame, body: &Body) {
    match *body {
        Body::Gate(gate) => put_gate(frame, &gate),
        Body::Discovery { granted, sync } => {
            frame[BODY_AT] = DISCOVERY_BIT;
            put_granted(frame, 0, granted);
            put_u16(frame, BODY_AT + 7, sync);
        }
        Body::Report(sets) => frame[BODY_AT..].copy_from_slice(&sets.octets()),
        Body::RegisterReq { flag, pending } => {
            frame[BODY_AT] = flag as u8;
            frame[BODY_AT + 1] = pending;
        }
        Body::Register {
            port,
            flag,
            sync,
            pending,
        } => {
            put_u16(frame, BODY_AT, u32::from(port));
            frame[BODY_AT + 2] = flag as u8;
            put_u16(frame, BODY_AT + 3, sync);
            frame[BODY_AT + 5] = pending;
        }
        Body::RegisterAck { flag, port, sync } => {
            frame[BODY_AT] = flag as u8;
            put_u16(frame, BODY_AT + 1, u32::from(port));
            put_u16(frame, BODY_AT + 3, sync);
        }
    }
}

fn put_gate(frame: &mut Frame, gate: &Gate) {
    for (place, granted) in gate.iter().enumerate() {
        put_granted(frame, place, granted);
    }
}

/// Adds the grant at `place`: its number, its force bit, start and length.
fn put_granted(frame: &mut Frame, place: usize, granted: Granted) {
    let at = BODY_AT + 1 + 6 * place;
    frame[BODY_AT] += 1;
    frame[BODY_AT] |= u8::from(granted.force) << FORCE_SHIFT << place;
    put_count(frame, at, granted.grant.start);
    put_u16(frame, at + 4, granted.grant.length);
}

/// Writes the low 16 bits; what is written has no more.
fn put_u16(frame: &mut Frame, at: usize, value: u32) {
    frame[at..at + 2].copy_from_slice(&value.to_be_bytes()[2..]);
}

fn put_count(frame: &mut Frame, at: usize, count: Count) {
    frame[at..at + 4].copy_from_slice(&count.0.to_be_bytes());
}
