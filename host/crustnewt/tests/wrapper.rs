//! The wrapper in use; answers worked by hand from the rules.

use crustnewt::{
    AckFlag, Advanced, ArrayTable, Body, BoxNotice, BoxState, FloorBox, Frame, Grant, Granted,
    Head, HeadNotice, HeadNoticeKind, Light, LinkState, Message, Next, OpenWindow, QueueSets,
    Refusal, RegisterFlag, RequestFlag, Table, UpTo, VecTable, Window,
};

const HEAD: u64 = 0x0200_0000_0001;
const BOX: u64 = 0x0200_0000_0031;
const EVERYONE: u64 = 0x0180_C200_0001;
/// A group's: the box's with the lowest bit of its first octet set.
const GROUP: u64 = 0x0300_0000_0031;

/// What a REPORT says that a box hands out by itself.
const EMPTY: Body = Body::Report(QueueSets::NONE);
/// Queues 0 and 2 with 258 and 772; queue 7 with 65,535.
const TWO_SETS: [u8; 8] = [0b101, 1, 2, 3, 4, 0b1000_0000, 0xFF, 0xFF];

fn head<const LINKS: usize>() -> Head<ArrayTable<LINKS>> {
    Head::fresh(HEAD, ArrayTable::new()).unwrap()
}

fn body(frame: &Frame) -> Body {
    let mut message = Message::default();
    message.read(frame).unwrap();
    message.body()
}

/// A box that has heard of a window at count 0, sync 0 and length 106, and has
/// asked in it; and its request.
fn asked<T: Table>(head: &mut Head<T>) -> (FloorBox, Frame) {
    let mut floor_box = FloorBox::fresh(BOX).unwrap();
    floor_box.register().unwrap();
    let asked = OpenWindow {
        grant: Grant {
            start: 0,
            length: 106,
        },
        sync: 0,
        window: 100,
    };
    let sent = head.open_window(&asked).unwrap();
    floor_box.hear(&sent.frames()[0], 0).unwrap();
    for _ in 0..31 {
        assert!(floor_box.tick().unwrap().frames().is_empty());
        head.tick().unwrap();
    }
    head.tick().unwrap();
    let reply = floor_box.tick().unwrap();
    assert!(reply.notices().eq([BoxNotice::Window]));
    let request = reply.frames()[0];
    (floor_box, request)
}

#[test]
fn a_pair_registers_and_parts() {
    let mut head = head::<2>();
    let (mut floor_box, request) = asked(&mut head);
    assert_eq!(floor_box.parts().light, Light::Asking { left: 42 });
    let control = floor_box.next_to_send(&request, &[]);
    assert_eq!(control, Next::Control(&request));

    let notice = head.hear(0, &request).unwrap().notice();
    let asked = HeadNotice {
        kind: HeadNoticeKind::Request,
        link: 0,
        trip: 0,
        sets: QueueSets::NONE,
    };
    assert_eq!(notice, Some(asked));
    let register = head.admit(BOX, 16, 10).unwrap().frames()[0];
    assert_eq!(head.link(1).unwrap().state, LinkState::Waiting);

    let reply = floor_box.hear(&register, 0).unwrap();
    assert!(reply.notices().eq([BoxNotice::Registered]));
    let [ack, report] = reply.frames() else {
        panic!("{reply:?}")
    };
    let (flag, port, sync) = (AckFlag::Ack, 1, 10);
    assert_eq!(body(ack), Body::RegisterAck { flag, port, sync });
    assert_eq!(body(report), EMPTY);
    assert_eq!(head.hear(1, ack).unwrap().frames().len(), 1);
    let kind = HeadNoticeKind::Report;
    let heard = head.hear(1, report).unwrap();
    assert_eq!(heard.notice().unwrap().kind, kind);
    assert_eq!(floor_box.state(), BoxState::Registered);

    let farewell = head.deregister(1).unwrap().frames()[0];
    floor_box.hear(&farewell, 0).unwrap();
    assert_eq!(floor_box.state(), BoxState::Wait);
}

#[test]
fn a_grant_is_told_and_lit() {
    let mut head = head::<1>();
    let (mut floor_box, request) = asked(&mut head);
    head.hear(0, &request).unwrap();
    let register = head.admit(BOX, 16, 0).unwrap().frames()[0];
    floor_box.hear(&register, 0).unwrap();
    let grant = Grant {
        start: floor_box.count().wrapping_add(100),
        length: 200,
    };
    let gate = head.gate(1, &[grant], 1).unwrap().frames()[0];
    let reply = floor_box.hear(&gate, 0).unwrap();
    let force = true;
    assert!(reply
        .notices()
        .eq([BoxNotice::Grant(Granted { grant, force })]));
    assert_eq!(*floor_box.parts().grants, [grant]);
    // The request's 42 ticks of light and 32 of fading end first; the wait
    // begins then.
    for _ in 0..100 {
        floor_box.tick().unwrap();
    }
    let light = floor_box.parts().light;
    let (left, length, sync) = (32, 200, 0);
    assert_eq!(light, Light::Lit { left, length, sync });
    assert!(light.is_on() && light.left() == 32);
    // Of the 200 transmission has what the laser leaves: 200 - 32 - 32.
    for (ticks, notice) in [(32, BoxNotice::Open), (136, BoxNotice::Close)] {
        let Advanced { reply, made } = floor_box.advance(1000).unwrap();
        assert!(made == ticks && reply.notices().eq([notice]));
    }
    let light = floor_box.parts().light;
    assert_eq!(light, Light::Fading { left: 32 });
    assert!(!light.is_on() && light.left() == 32);
}

#[test]
fn drift_is_signed() {
    let mut head = head::<1>();
    let (mut floor_box, _) = asked(&mut head);
    let flag = RegisterFlag::Nack;
    let (port, sync, pending) = (0, 0, 16);
    let nack = Body::Register {
        flag,
        port,
        sync,
        pending,
    };
    let mut frame = [0; 60];
    Message::new(BOX, HEAD, 30, &nack)
        .write(&mut frame)
        .unwrap();
    let reply = floor_box.hear(&frame, 0).unwrap();
    assert_eq!(reply.drift(), -2);
    assert!(reply.notices().eq([BoxNotice::Refused]));
}

#[test]
fn a_reply_tells_nothing_of_the_one_before() {
    let mut head = head::<1>();
    let (mut floor_box, request) = asked(&mut head);
    let quiet = floor_box.tick().unwrap();
    assert!(quiet.frames().is_empty() && quiet.notices().next().is_none());
    assert_eq!(quiet.drift(), 0);
    assert!(head.hear(0, &request).unwrap().notice().is_some());
    assert_eq!(head.tick().unwrap().notice(), None);
}

#[test]
fn what_is_stored_can_be_restored_if_it_is_sound() {
    let mut head = head::<3>();
    let (floor_box, _) = asked(&mut head);
    let mut parts = floor_box.parts();
    let stored = Ok(floor_box.clone());
    assert_eq!(FloorBox::restored(&parts), stored);
    assert_eq!(FloorBox::from_words(*floor_box.words()), stored);
    let mut words = *floor_box.words();
    words[28] = 1;
    assert_eq!(FloorBox::from_words(words), Err(Refusal::Unsound));
    parts.wait = 0;
    assert_eq!(FloorBox::restored(&parts), Err(Refusal::Unsound));

    let links: Vec<_> = head.links().map(|link| link.words()).collect();
    assert_eq!(links.as_flattened(), head.table().words());
    let table = VecTable::from_words(links).unwrap();
    let mut parts = head.parts();
    assert_eq!(parts.window, Window::Inside { left: 68 });
    let again = Head::restored(&parts, table.clone()).unwrap();
    assert_eq!(again.words(), head.words());
    assert!(again.links().eq(head.links()));
    parts.window = Window::Inside { left: 131_073 };
    let unsound = Head::restored(&parts, table);
    assert_eq!(unsound.unwrap_err(), Refusal::Unsound);
}

#[test]
fn every_state_is_judged_and_none_is_changed_by_it() {
    for state in 0..4 {
        let mut floor_box = FloorBox::fresh(BOX).unwrap();
        if state > 0 {
            floor_box.register().unwrap();
        }
        let mut parts = floor_box.parts();
        if state == 2 {
            (parts.state, parts.wait) = (BoxState::Requesting, 1);
        }
        if state == 3 {
            (parts.state, parts.watchdog, parts.report) = (BoxState::Registered, 1, 1);
        }
        assert_eq!(FloorBox::restored(&parts).unwrap().parts(), parts);
        parts.address = 0;
        assert_eq!(FloorBox::restored(&parts), Err(Refusal::Unsound));
    }
}

#[test]
fn refusals_have_their_names_and_change_nothing() {
    assert_eq!(FloorBox::fresh(EVERYONE), Err(Refusal::Range));
    let table = VecTable::new(1).unwrap();
    assert_eq!(Head::fresh(1 << 48, table).unwrap_err(), Refusal::Range);
    for links in [0, 65, usize::MAX] {
        assert!(VecTable::new(links).is_none());
    }

    let mut floor_box = FloorBox::fresh(BOX).unwrap();
    let before = floor_box.clone();
    assert_eq!(floor_box.deregister(), Err(Refusal::State));
    assert_eq!(floor_box.hear(&[0; 59], 0), Err(Refusal::Size));
    assert_eq!(floor_box, before);

    let mut head = head::<1>();
    assert_eq!(head.reregister(1, 0), Err(Refusal::Link));
    assert_eq!(head.admit(HEAD, 0, 65_536), Err(Refusal::Range));
    head.admit(BOX, 0, 0).unwrap();
    assert_eq!(head.admit(BOX, 0, 0), Err(Refusal::Held));
    assert_eq!(head.reject(0, 0, 0), Err(Refusal::Range));
    assert_eq!(head.admit(HEAD, 0, 0), Err(Refusal::Full));
    let told = Refusal::Full.to_string();
    assert_eq!(told, "every link is held (11)");
}

#[test]
fn a_gate_has_four_grants_at_most() {
    let mut head = head::<1>();
    let (floor_box, request) = asked(&mut head);
    head.hear(0, &request).unwrap();
    let register = head.admit(BOX, 16, 0).unwrap().frames()[0];
    let ack = floor_box.clone().hear(&register, 0).unwrap().frames()[0];
    head.hear(1, &ack).unwrap();
    let grants = [1, 2, 3, 4, 5, 6].map(|start| Grant { start, length: 106 });
    for number in 0..=4 {
        let force = 0b0101 & ((1 << number) - 1);
        let sent = head.gate(1, &grants[..number], force).unwrap();
        let Body::Gate(told) = body(&sent.frames()[0]) else {
            panic!("{sent:?}")
        };
        let starts = told.iter().map(|it| (it.grant.start, it.force));
        let expected = [(1, true), (2, false), (3, true), (4, false)];
        assert!(starts.eq(expected[..number].iter().copied()));
    }
    for number in [5, 6] {
        assert_eq!(head.gate(1, &grants[..number], 0), Err(Refusal::Grant));
    }
    assert_eq!(UpTo::<Grant, 4>::of(&grants), None);
}

const GRANTED: Granted = Granted {
    grant: Grant {
        start: u32::MAX,
        length: 65_535,
    },
    force: true,
};

/// One of each kind, with fields at their ends.
fn bodies() -> [Body; 9] {
    let (port, sync, pending) = (u16::MAX, 65_535, u8::MAX);
    [
        Body::Gate([].into()),
        Body::Gate([GRANTED, Granted::default(), GRANTED].into()),
        Body::Gate([GRANTED; 4].into()),
        Body::Discovery {
            granted: GRANTED,
            sync,
        },
        EMPTY,
        Body::Report(QueueSets::of(2, &TWO_SETS).unwrap()),
        Body::RegisterReq {
            flag: RequestFlag::Deregister,
            pending,
        },
        Body::Register {
            flag: RegisterFlag::Reregister,
            port,
            sync,
            pending,
        },
        Body::RegisterAck {
            flag: AckFlag::Nack,
            port,
            sync,
        },
    ]
}

#[test]
fn messages_go_to_octets_and_back() {
    for body in bodies() {
        let message = Message::new(EVERYONE, BOX, 5, &body);
        let (mut read, mut frame) = (Message::default(), [0xEE; 60]);
        message.write(&mut frame).unwrap();
        read.read(&frame).unwrap();
        assert_eq!(read, message);
        assert_eq!(read.body(), body);
        assert_eq!((read.to(), read.from(), read.stamp()), (EVERYONE, BOX, 5));
    }
}

#[test]
fn what_is_refused_is_empty() {
    let wide = Body::Discovery {
        granted: GRANTED,
        sync: 65_536,
    };
    let mut message = Message::new(EVERYONE, BOX, 5, &wide);
    let mut frame = [0xEE; 60];
    assert_eq!(message.write(&mut frame), Err(Refusal::Range));
    assert_eq!(message.read(&frame), Err(Refusal::Kind));
    assert_eq!((frame, message), ([0; 60], Message::default()));
}

/// Its octets with another source.
fn from(source: u64, frame: &Frame) -> Frame {
    let mut frame = *frame;
    frame[6..12].copy_from_slice(&source.to_be_bytes()[2..]);
    frame
}

#[test]
fn a_source_is_individual_and_not_zero() {
    let frame_of = |to, from| {
        let mut frame = [0xEE; 60];
        let written = Message::new(to, from, 5, &EMPTY).write(&mut frame);
        written.map(|()| frame)
    };
    for source in [1, BOX, 0xFE00_0000_0000] {
        let frame = frame_of(EVERYONE, source).unwrap();
        let mut message = Message::default();
        message.read(&frame).unwrap();
        assert_eq!(message.from(), source);
    }
    let report = frame_of(EVERYONE, BOX).unwrap();
    for source in [0, GROUP, EVERYONE, 1 << 40, (1 << 48) - 1] {
        assert_eq!(frame_of(EVERYONE, source), Err(Refusal::Range));
        let mut message = Message::new(EVERYONE, BOX, 5, &EMPTY);
        let read = message.read(&from(source, &report));
        assert_eq!(read, Err(Refusal::Range), "{source:#x}");
        assert_eq!(message, Message::default());
    }
    assert_eq!(frame_of(EVERYONE, BOX | 1 << 48), Err(Refusal::Range));
    for destination in [0, GROUP, (1 << 48) - 1] {
        assert!(frame_of(destination, BOX).is_ok());
    }
    assert_eq!(Message::default().write(&mut [0; 60]), Err(Refusal::Range));
}

#[test]
fn a_frame_of_a_group_or_nobody_is_not_heard() {
    let mut head = head::<1>();
    let (mut floor_box, request) = asked(&mut head);
    for source in [0, GROUP] {
        let heard = head.hear(0, &from(source, &request));
        assert_eq!(heard, Err(Refusal::Range));
    }
    head.hear(0, &request).unwrap();
    let register = head.admit(BOX, 16, 10).unwrap().frames()[0];
    let before = floor_box.clone();
    for source in [0, GROUP] {
        let heard = floor_box.hear(&from(source, &register), 0);
        assert_eq!(heard, Err(Refusal::Range));
    }
    assert_eq!(floor_box, before);
    floor_box.hear(&register, 0).unwrap();
    assert_eq!(floor_box.state(), BoxState::Registered);
}
