//! Frames worked by hand from the rules (R30 to R51).

use plain::frame::{read, write, AckFlag, RegisterFlag, RequestFlag};
use plain::{Address, Body, Count, Frame, Gate, Grant, Granted, Message, QueueSets, Refusal};

const HEAD: Address = Address(0x0A0B_0C0D_0E0F);
const BOX: Address = Address(0x0200_0000_0031);
/// A REPORT of no sets.
const EMPTY: Body = Body::Report(QueueSets::NONE);

/// A frame from its first octets; the rest is pad.
fn frame(octets: &[u8]) -> Frame {
    let mut frame = [0; 60];
    frame[..octets.len()].copy_from_slice(octets);
    frame
}

fn grant(start: u32, length: u32, force: bool) -> Granted {
    let start = Count(start);
    let grant = Grant { start, length };
    Granted { grant, force }
}

fn message(body: Body) -> Message {
    Message {
        to: BOX,
        from: HEAD,
        stamp: Count(0x0102_0304),
        body,
    }
}

/// The twenty octets before the body of [`message`].
fn before(opcode: u8) -> Vec<u8> {
    let mut octets = vec![2, 0, 0, 0, 0, 0x31, 0x0A, 0x0B, 0x0C, 0x0D, 0x0E, 0x0F];
    octets.extend([0x88, 0x08, 0, opcode, 1, 2, 3, 4]);
    octets
}

fn whole(opcode: u8, body: &[u8]) -> Frame {
    frame(&[before(opcode), body.to_vec()].concat())
}

fn agrees(body: Body, frame: Frame) {
    agree(message(body), frame);
}

/// The message is written as the frame, and the frame read as the message.
fn agree(message: Message, frame: Frame) {
    assert_eq!(write(&message), Ok(frame));
    assert_eq!(read(&frame), Ok(message));
}

/// Neither is the message written nor the frame read: both are 4.
fn out_of_range(message: Message, frame: Frame) {
    assert_eq!(write(&message), Err(Refusal::OutOfRange), "{message:?}");
    assert_eq!(read(&frame), Err(Refusal::OutOfRange), "{frame:02x?}");
}

/// A REPORT to everyone from this source, and its frame with these octets
/// from the seventh on.
fn report_from(source: u64, octets: [u8; 6]) -> (Message, Frame) {
    let message = Message {
        to: Address::EVERYONE,
        from: Address(source),
        stamp: Count(0x6C6D_6E6F),
        body: EMPTY,
    };
    let mut report = vec![0x01, 0x80, 0xC2, 0, 0, 1];
    report.extend(octets);
    report.extend([0x88, 0x08, 0, 3, 0x6C, 0x6D, 0x6E, 0x6F]);
    (message, frame(&report))
}

/// A box's address with its group bit set, and its octets.
const GROUP: (u64, [u8; 6]) = (0x0313_4657_8A9B, [3, 0x13, 0x46, 0x57, 0x8A, 0x9B]);

#[test]
fn gate_of_two_grants_the_second_forced() {
    let gate = Gate::of(&[grant(0x1122_3344, 0x5566, false), grant(7, 8, true)]).unwrap();
    let body = [0x22, 0x11, 0x22, 0x33, 0x44, 0x55, 0x66, 0, 0, 0, 7, 0, 8];
    agrees(Body::Gate(gate), whole(2, &body));
}

#[test]
fn empty_and_full_gates() {
    agrees(Body::Gate(Gate::empty()), whole(2, &[0]));
    let gate = Gate::of(&[grant(1, 2, true); 4]).unwrap();
    let mut body = vec![0xF4];
    body.extend([0, 0, 0, 1, 0, 2].repeat(4));
    agrees(Body::Gate(gate), whole(2, &body));
}

#[test]
fn discovery_gate_has_its_sync_after_the_grant() {
    let granted = grant(0x0A, 0xFFFF, false);
    let body = [0x09, 0, 0, 0, 0x0A, 0xFF, 0xFF, 0x12, 0x34];
    agrees(
        Body::Discovery {
            granted,
            sync: 0x1234,
        },
        whole(2, &body),
    );
}

#[test]
fn report_and_register_req() {
    agrees(EMPTY, whole(3, &[0]));
    let req = |flag, pending| Body::RegisterReq { flag, pending };
    agrees(req(RequestFlag::Register, 16), whole(4, &[1, 16]));
    agrees(req(RequestFlag::Deregister, 0), whole(4, &[3, 0]));
}

#[test]
fn register_and_register_ack() {
    for (octet, flag) in [
        (1, RegisterFlag::Reregister),
        (2, RegisterFlag::Deregister),
        (3, RegisterFlag::Ack),
        (4, RegisterFlag::Nack),
    ] {
        let body = Body::Register {
            port: 0x0102,
            flag,
            sync: 0x0304,
            pending: 5,
        };
        agrees(body, whole(5, &[1, 2, octet, 3, 4, 5]));
    }
    for (octet, flag) in [(0, AckFlag::Nack), (1, AckFlag::Ack)] {
        let body = Body::RegisterAck {
            flag,
            port: 0x0102,
            sync: 0x0304,
        };
        agrees(body, whole(6, &[octet, 1, 2, 3, 4]));
    }
}

#[test]
fn pad_is_ignored_when_read_and_written_zero() {
    let mut padded = whole(6, &[1, 0, 1, 0, 0]);
    padded[25..].fill(0xFF);
    let read = read(&padded).unwrap();
    assert_eq!(write(&read), Ok(whole(6, &[1, 0, 1, 0, 0])));
}

#[test]
fn reading_tests_one_two_three_four() {
    assert_eq!(read(&[]), Err(Refusal::NotSixtyOctets));
    assert_eq!(read(&[0; 59]), Err(Refusal::NotSixtyOctets));
    assert_eq!(read(&[0; 61]), Err(Refusal::NotSixtyOctets));
    assert_eq!(read(&[0; 60]), Err(Refusal::NotControl));
    assert_eq!(read(&whole(1, &[])), Err(Refusal::UnknownOpcode));
    assert_eq!(read(&whole(7, &[])), Err(Refusal::UnknownOpcode));
    let mut high = whole(2, &[0]);
    high[14] = 1;
    assert_eq!(read(&high), Err(Refusal::UnknownOpcode));
}

#[test]
fn fields_out_of_range_are_four() {
    let refused: [(u8, &[u8]); 12] = [
        (2, &[5]),    // five grants
        (2, &[0x10]), // a force bit without its grant
        (2, &[0x42]), // force bit 3 of two grants
        (2, &[8]),    // discovery without a grant
        (2, &[0x0A]), // discovery with two
        (3, &[40]),   // forty queue sets
        (4, &[0]),
        (4, &[2]),
        (5, &[0, 1, 0]),
        (5, &[0, 1, 5]),
        (6, &[2]),
        (6, &[255]),
    ];
    for (opcode, body) in refused {
        let answer = read(&whole(opcode, body));
        assert_eq!(answer, Err(Refusal::OutOfRange), "{opcode} {body:?}");
    }
}

#[test]
fn individual_sources_are_in_range() {
    for (source, octets) in [
        (0x0213_4657_8A9B, [2, 0x13, 0x46, 0x57, 0x8A, 0x9B]),
        // The lowest bit of the last octet marks no group.
        (1, [0, 0, 0, 0, 0, 1]),
        // Nor does any other bit of the first.
        (0xFE00_0000_0000, [0xFE, 0, 0, 0, 0, 0]),
    ] {
        let (message, frame) = report_from(source, octets);
        agree(message, frame);
    }
}

#[test]
fn sources_of_zero_and_of_groups_are_four() {
    for (source, octets) in [
        GROUP,
        (0, [0; 6]),
        (0x0100_0000_0000, [1, 0, 0, 0, 0, 0]),
        (0xFFFF_FFFF_FFFF, [0xFF; 6]),
        (0x0180_C200_0001, [1, 0x80, 0xC2, 0, 0, 1]),
    ] {
        let (message, frame) = report_from(source, octets);
        out_of_range(message, frame);
    }
}

#[test]
fn the_source_of_every_kind_is_judged() {
    let bodies: [(u8, &[u8]); 6] = [
        (2, &[0]),
        (2, &[9, 0, 0, 0, 0x0A, 0, 0x50, 0, 6]), // discovery
        (3, &[0]),
        (4, &[1, 16]),
        (5, &[0, 1, 3, 0, 5, 16]),
        (6, &[1, 0, 1, 0, 5]),
    ];
    for (opcode, body) in bodies {
        let mut frame = whole(opcode, body);
        let individual = read(&frame).unwrap();
        for (source, octets) in [GROUP, (0, [0; 6])] {
            frame[6..12].copy_from_slice(&octets);
            let from = Address(source);
            out_of_range(Message { from, ..individual }, frame);
        }
    }
}

#[test]
fn size_type_and_opcode_come_before_the_source() {
    let (source, octets) = GROUP;
    let (_, frame) = report_from(source, octets);
    assert_eq!(read(&frame[..59]), Err(Refusal::NotSixtyOctets));
    let with = |place: usize, octet: u8| {
        let mut frame = frame;
        frame[place] = octet;
        read(&frame)
    };
    assert_eq!(with(13, 9), Err(Refusal::NotControl));
    assert_eq!(with(15, 7), Err(Refusal::UnknownOpcode));
    assert_eq!(with(15, 3), Err(Refusal::OutOfRange));
}

#[test]
fn destinations_are_not_judged() {
    for (to, octets) in [
        (0, [0; 6]),
        (0x0313_4657_8A9B, [3, 0x13, 0x46, 0x57, 0x8A, 0x9B]),
        (0xFFFF_FFFF_FFFF, [0xFF; 6]),
    ] {
        let mut frame = whole(3, &[0]);
        frame[..6].copy_from_slice(&octets);
        let to = Address(to);
        agree(
            Message {
                to,
                ..message(EMPTY)
            },
            frame,
        );
    }
}

#[test]
fn the_blank_message_has_no_frame() {
    let blank = Message {
        to: Address::ZERO,
        from: Address::ZERO,
        stamp: Count(0),
        body: EMPTY,
    };
    out_of_range(blank, frame(&[&[0; 12][..], &[0x88, 0x08, 0, 3]].concat()));
}

#[test]
fn writer_refuses_what_the_wire_cannot_hold() {
    let wide_source = Message {
        from: Address(HEAD.0 | 1 << 48),
        ..message(EMPTY)
    };
    let wide_destination = Message {
        to: Address(1 << 48),
        ..message(EMPTY)
    };
    let long_grant = message(Body::Gate(Gate::of(&[grant(0, 65_536, false)]).unwrap()));
    let long_sync = message(Body::RegisterAck {
        flag: AckFlag::Ack,
        port: 1,
        sync: 65_536,
    });
    for refused in [wide_source, wide_destination, long_grant, long_sync] {
        assert_eq!(write(&refused), Err(Refusal::OutOfRange));
    }
}

#[test]
fn no_gate_of_five_grants_can_be_made() {
    assert_eq!(Gate::of(&[Granted::default(); 5]), None);
}
