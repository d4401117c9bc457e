//! Reading and writing a frame of each kind.

use crate::boxes::BOX;
use crate::heads::HEAD;
use crate::measure::Case;
use crustnewt::sys;
use crustnewt::{
    AckFlag, Body, Frame, Grant, Granted, Message, QueueSets, RegisterFlag, RequestFlag,
};
use plain::frame::{read, write};
use std::hint::black_box;

/// Reading and writing for each kind, and the C calls themselves for one.
pub fn cases() -> Vec<Case> {
    let mut cases: Vec<Case> = bodies()
        .into_iter()
        .flat_map(|(name, body)| {
            let message = Message::new(BOX, HEAD, 9, &body);
            let frame = written(&message);
            [reading(name, frame), writing(name, message, frame)]
        })
        .collect();
    let message = Message::new(BOX, HEAD, 9, &Body::Report(QueueSets::NONE));
    let frame = written(&message);
    cases.extend([c_reading(frame), c_writing(message, frame)]);
    cases
}

/// Two queue sets of eight queues each, as they stand in a frame.
pub const TWO_FULL: [u8; 34] = {
    let mut octets = [0x12; 34];
    octets[0] = 0xFF;
    octets[17] = 0xFF;
    octets
};

fn two_full() -> QueueSets {
    QueueSets::of(2, &TWO_FULL).expect("they fit")
}

/// Its frame.
pub fn written(message: &Message) -> Frame {
    let mut frame = [0; sys::FRAME_OCTETS];
    message.write(&mut frame).expect("it is in range");
    frame
}

fn reading(name: &str, frame: Frame) -> Case {
    let mut message = Message::default();
    Case::short(
        format!("read {name}"),
        move || {
            black_box(black_box(&mut message).read(black_box(&frame))).ok();
        },
        plain_reading(frame),
    )
}

fn writing(name: &str, message: Message, frame: Frame) -> Case {
    let mut octets = frame;
    Case::short(
        format!("write {name}"),
        move || {
            black_box(black_box(&message).write(black_box(&mut octets))).ok();
        },
        plain_writing(frame),
    )
}

fn c_reading(frame: Frame) -> Case {
    let mut words = [0; sys::MESSAGE_WORDS];
    Case::short(
        "read REPORT, the C call",
        move || {
            black_box(sys::read(black_box(&frame), black_box(&mut words)));
        },
        plain_reading(frame),
    )
}

fn c_writing(message: Message, frame: Frame) -> Case {
    let mut octets = [0; sys::FRAME_OCTETS];
    Case::short(
        "write REPORT, the C call",
        move || {
            let words = black_box(&message).words();
            black_box(sys::write(words, black_box(&mut octets)));
        },
        plain_writing(frame),
    )
}

fn plain_reading(frame: Frame) -> impl FnMut() {
    move || {
        black_box(&read(black_box(&frame)));
    }
}

fn plain_writing(frame: Frame) -> impl FnMut() {
    let message = read(&frame).expect("it was written");
    move || {
        black_box(&write(black_box(&message)));
    }
}

fn bodies() -> [(&'static str, Body); 7] {
    let granted = Granted {
        grant: Grant {
            start: 1000,
            length: 500,
        },
        force: true,
    };
    let (port, sync, pending) = (1, 10, 16);
    let discovery = Body::Discovery { granted, sync };
    let request = Body::RegisterReq {
        flag: RequestFlag::Register,
        pending,
    };
    let register = Body::Register {
        flag: RegisterFlag::Ack,
        port,
        sync,
        pending,
    };
    let acknowledgement = Body::RegisterAck {
        flag: AckFlag::Ack,
        port,
        sync,
    };
    [
        ("GATE of four grants", Body::Gate([granted; 4].into())),
        ("discovery GATE", discovery),
        ("REPORT", Body::Report(QueueSets::NONE)),
        ("REPORT with two full sets", Body::Report(two_full())),
        ("REGISTER_REQ", request),
        ("REGISTER", register),
        ("REGISTER_ACK", acknowledgement),
    ]
}
