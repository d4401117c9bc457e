//! REPORTs and their queue sets; answers worked by hand from the rules.

use crustnewt::sys::{self, BoxMemory};
use crustnewt::{
    ArrayTable, Body, BoxNotice, BoxParts, BoxState, FloorBox, Frame, Grant, Granted, Head,
    HeadNotice, HeadNoticeKind, HeadParts, Light, Link, LinkState, Message, QueueSet, QueueSets,
    Refusal, UpTo, Window,
};

const HEAD: u64 = 0x0200_0000_0001;
const BOX: u64 = 0x0213_4657_8A9B;
const EVERYONE: u64 = 0x0180_C200_0001;
const PERIOD: u32 = 3_125_000;

/// Queues 0 and 2 with 258 and 772; queue 7 with 65,535.
const TWO_SETS: [u8; 8] = [0b101, 1, 2, 3, 4, 0b1000_0000, 0xFF, 0xFF];

/// A set of all eight queues, each of length 0.
const FULL: [u8; 17] = {
    let mut set = [0; 17];
    set[0] = 0xFF;
    set
};

/// Bodies that are all forty octets of sets, and one set or queue too many in
/// the last octet or in the number: the number, the sets, and whether they fit.
fn around_forty() -> Vec<(u8, Vec<u8>, bool)> {
    let ones = [1, 0, 0].repeat(13);
    let full = [FULL, FULL].concat();
    let with = |last: &[u8]| [&full[..], last].concat();
    vec![
        (39, vec![0; 39], true),
        (40, vec![0; 39], false),
        (13, ones.clone(), true),
        (14, ones, false),
        (3, with(&[3, 0, 0, 0, 0]), true),
        (3, with(&[7, 0, 0, 0, 0]), false),
        (5, with(&[1, 0, 0, 0, 0]), true),
        (5, with(&[1, 0, 0, 0, 1]), false),
        (255, vec![0; 39], false),
    ]
}

fn body_of(number: u8, sets: &[u8]) -> [u8; 40] {
    let mut body = [0; 40];
    body[0] = number;
    body[1..=sets.len()].copy_from_slice(sets);
    body
}

/// A REPORT of the box with this body, at count 1000.
fn frame_of(body: &[u8; 40]) -> Frame {
    let mut frame = [0; 60];
    frame[..20].copy_from_slice(&[
        0x01, 0x80, 0xC2, 0x00, 0x00, 0x01, 0x02, 0x13, 0x46, 0x57, 0x8A, 0x9B, 0x88, 0x08, 0x00,
        0x03, 0x00, 0x00, 0x03, 0xE8,
    ]);
    frame[20..].copy_from_slice(body);
    frame
}

fn read(frame: &Frame) -> Result<Message, Refusal> {
    let mut message = Message::default();
    message.read(frame).map(|()| message)
}

fn write(body: Body) -> Result<Frame, Refusal> {
    let mut frame = [0xEE; 60];
    let written = Message::new(EVERYONE, BOX, 1000, &body).write(&mut frame);
    written.map(|()| frame)
}

/// REGISTERED, at count 1000; the REPORT is due in 7 ticks, the watchdog in 9.
fn registered() -> BoxParts {
    BoxParts {
        address: BOX,
        count: 1000,
        state: BoxState::Registered,
        wait: 0,
        watchdog: 9,
        report: 7,
        port: 3,
        sync: 10,
        light: Light::Rest,
        grants: UpTo::default(),
    }
}

fn restored(parts: &BoxParts) -> FloorBox {
    FloorBox::restored(parts).unwrap()
}

/// A head at count 1500 whose third link is the box's, in this state.
fn head(state: LinkState) -> Head<ArrayTable<3>> {
    let mut link = Link {
        address: BOX,
        state,
        wait: 0,
        watchdog: 5,
        periodic: 5,
    };
    if state == LinkState::Waiting {
        link = Link {
            wait: 5,
            watchdog: 0,
            periodic: 0,
            ..link
        };
    }
    let mut words = [[0; sys::LINK_WORDS]; 3];
    words[2] = link.words();
    let parts = HeadParts {
        address: HEAD,
        count: 1500,
        window: Window::Idle,
    };
    Head::restored(&parts, ArrayTable::from_words(words)).unwrap()
}

#[test]
fn sets_are_their_octets() {
    let sets = QueueSets::of(2, &TWO_SETS).unwrap();
    assert_eq!(sets.octets(), body_of(2, &TWO_SETS));
    assert_eq!(QueueSets::of_octets(sets.octets()), sets);
    let told = [
        QueueSet {
            bitmap: 0b101,
            lengths: [258, 0, 772, 0, 0, 0, 0, 0],
        },
        QueueSet {
            bitmap: 0b1000_0000,
            lengths: [0, 0, 0, 0, 0, 0, 0, 65_535],
        },
    ];
    assert!(sets.iter().eq(told));
    assert!(told[0].queues().eq([(0, 258), (2, 772)]));
    assert_eq!(QueueSets::of_sets(&told), Some(sets));
    // What a set has of other queues isn't told.
    let more = told.map(|set| QueueSet {
        lengths: set.lengths.map(|length| length.max(1)),
        ..set
    });
    assert_eq!(QueueSets::of_sets(&more), Some(sets));
    assert_eq!((sets.len(), sets.is_empty()), (2, false));
    let none = QueueSets::NONE;
    assert_eq!((none.len(), none.is_empty()), (0, true));
    assert_eq!(none.octets(), [0; 40]);
    assert!(none.iter().next().is_none());
}

#[test]
fn sets_fit_or_there_are_none() {
    for (number, octets, fits) in around_forty() {
        let sets = QueueSets::of(number, &octets);
        assert_eq!(sets.is_some(), fits, "{number} {octets:?}");
        let asked = QueueSets::of_octets(body_of(number, &octets));
        assert_eq!(sets.unwrap_or(asked), asked);
        let told: Vec<_> = asked.iter().collect();
        assert_eq!(told.len() == asked.len(), fits, "{number} {octets:?}");
    }
    // One octet less, one more, a set more and a set less than are said.
    for (number, octets) in [
        (2, &TWO_SETS[..7]),
        (2, &[&TWO_SETS[..], &[0]].concat()[..]),
        (3, &TWO_SETS),
        (1, &TWO_SETS),
        (0, &[0]),
        (1, &[]),
        (40, &[0; 40]),
    ] {
        assert_eq!(QueueSets::of(number, octets), None, "{number} {octets:?}");
    }
    let queues = |bitmap| QueueSet {
        bitmap,
        lengths: [9; 8],
    };
    assert!(QueueSets::of_sets(&[queues(0xFF), queues(0xFF), queues(0b11)]).is_some());
    assert!(QueueSets::of_sets(&[queues(0xFF), queues(0xFF), queues(0b111)]).is_none());
    assert!(QueueSets::of_sets(&[queues(0); 39]).is_some());
    assert!(QueueSets::of_sets(&[queues(0); 40]).is_none());
    assert!(QueueSets::of_sets(&[queues(0); 256]).is_none());
}

#[test]
fn a_report_is_read_and_written_with_its_sets() {
    let body = body_of(2, &TWO_SETS);
    let message = read(&frame_of(&body)).unwrap();
    let sets = QueueSets::of(2, &TWO_SETS).unwrap();
    assert_eq!(message.body(), Body::Report(sets));
    // R241 and the header: eight octets to a word, the first of them highest.
    let words = [0x0205_0102_0304_80FF, 0xFF00_0000_0000_0000, 0, 0, 0, 0];
    assert_eq!(message.words()[4..], words);
    assert_eq!(write(Body::Report(sets)), Ok(frame_of(&body)));

    for (number, octets, fits) in around_forty() {
        let body = body_of(number, &octets);
        let read = read(&frame_of(&body)).map(|message| message.body());
        let sets = Body::Report(QueueSets::of_octets(body));
        let refused = Err(Refusal::Range);
        assert_eq!(read, if fits { Ok(sets) } else { refused });
        let frame = fits.then_some(frame_of(&body)).ok_or(Refusal::Range);
        assert_eq!(write(sets), frame, "{number} {octets:?}");
    }
}

#[test]
fn a_pad_is_passed_over_by_the_reader_and_refused_by_the_writer() {
    for (number, octets) in [(0, &[][..]), (2, &TWO_SETS)] {
        let clean = body_of(number, octets);
        let mut padded = clean;
        padded[octets.len() + 1..].fill(0xEE);
        let message = read(&frame_of(&padded)).unwrap();
        assert_eq!(message.body(), Body::Report(QueueSets::of_octets(clean)));
    }
    let mut padded = body_of(2, &TWO_SETS);
    padded[39] = 1;
    let sets = QueueSets::of_octets(padded);
    assert_eq!(write(Body::Report(sets)), Err(Refusal::Range));
    let mut floor_box = restored(&registered());
    assert_eq!(floor_box.report_sets(&sets), Err(Refusal::Range));
}

#[test]
fn a_client_reports_and_the_timer_begins_anew() {
    let parts = registered();
    let after = BoxParts {
        report: PERIOD,
        ..parts.clone()
    };
    for (number, octets) in [(2, &TWO_SETS[..]), (0, &[])] {
        let mut floor_box = restored(&parts);
        let reply = floor_box.report(number, octets).unwrap();
        assert_eq!(reply.frames(), [frame_of(&body_of(number, octets))]);
        assert!(reply.notices().next().is_none() && reply.drift() == 0);
        assert_eq!(floor_box.parts(), after);

        let mut same = restored(&parts);
        let sets = QueueSets::of(number, octets).unwrap();
        let reply = same.report_sets(&sets).unwrap();
        assert_eq!(reply.frames(), [frame_of(&body_of(number, octets))]);
        assert_eq!(same, floor_box);
    }
}

#[test]
fn a_report_out_of_state_or_range_is_refused() {
    let mut floor_box = FloorBox::fresh(BOX).unwrap();
    for _ in 0..2 {
        assert_eq!(floor_box.report(2, &TWO_SETS), Err(Refusal::State));
        assert_eq!(floor_box.report(40, &[0; 40]), Err(Refusal::State));
        floor_box.register().ok();
    }
    let mut floor_box = restored(&registered());
    let before = floor_box.clone();
    for (number, octets, fits) in around_forty() {
        let mut asked = before.clone();
        assert_eq!(asked.report(number, &octets).is_ok(), fits);
        assert_eq!(asked == before, !fits);
    }
    for (number, octets) in [
        (40, &[0; 40][..]),
        (1, &TWO_SETS),
        (3, &TWO_SETS),
        (2, &TWO_SETS[..7]),
        (0, &[0; 60_000]),
    ] {
        assert_eq!(floor_box.report(number, octets), Err(Refusal::Range));
    }
    let past = QueueSets::of_octets([0xFF; 40]);
    assert_eq!(floor_box.report_sets(&past), Err(Refusal::Range));
    assert_eq!(floor_box, before);
}

/// The number that a request for a REPORT is answered with, in this memory.
fn lent(words: &mut [u64], frames: &mut [u8], reply: &mut [u64]) -> u8 {
    let block = words;
    sys::box_report(
        2,
        &TWO_SETS,
        BoxMemory {
            block,
            frames,
            reply,
        },
    )
}

#[test]
fn too_little_memory_is_100_before_all_else() {
    let lengths = [sys::BOX_WORDS, sys::BOX_FRAMES_OCTETS, sys::BOX_REPLY_WORDS];
    for short in 0..3 {
        let mut lengths = lengths;
        lengths[short] -= 1;
        // In WAIT, and with an address of zero: 7 and 13 come later.
        let mut block = vec![0; lengths[0]];
        let mut frames = vec![0xEE; lengths[1]];
        let mut reply = vec![77; lengths[2]];
        assert_eq!(lent(&mut block, &mut frames, &mut reply), 100);
        assert!(block.iter().all(|&word| word == 0));
        assert!(frames.iter().all(|&octet| octet == 0xEE));
        assert!(reply.iter().all(|&word| word == 77));
    }
    let [block, frames, reply] = lengths;
    let number = lent(
        &mut vec![0; block],
        &mut vec![0; frames],
        &mut vec![0; reply],
    );
    assert_eq!(number, 13);
}

#[test]
fn the_head_tells_the_sets_of_a_registered_box() {
    let frame = frame_of(&body_of(2, &TWO_SETS));
    let mut heard = head(LinkState::Registered);
    let told = HeadNotice {
        kind: HeadNoticeKind::Report,
        link: 3,
        trip: 500,
        sets: QueueSets::of(2, &TWO_SETS).unwrap(),
    };
    assert_eq!(heard.hear(3, &frame).unwrap().notice(), Some(told));
    assert_eq!(heard.link(3).unwrap().watchdog, 62_500_000);

    let empty = frame_of(&[0; 40]);
    let sets = QueueSets::NONE;
    let notice = heard.hear(3, &empty).unwrap().notice();
    assert_eq!(notice, Some(HeadNotice { sets, ..told }));

    let mut waiting = head(LinkState::Waiting);
    let reply = waiting.hear(3, &frame).unwrap();
    assert_eq!((reply.notice(), reply.frames().len()), (None, 0));
    assert_eq!(waiting.hear(2, &frame), Err(Refusal::Link));
}

#[test]
fn a_notice_has_no_sets_of_the_report_before() {
    let mut head = head(LinkState::Registered);
    head.hear(3, &frame_of(&body_of(2, &TWO_SETS))).unwrap();
    let farewell = restored(&registered()).deregister().unwrap().frames()[0];
    let notice = head.hear(3, &farewell).unwrap().notice().unwrap();
    let dropped = HeadNotice {
        kind: HeadNoticeKind::Dropped,
        link: 3,
        trip: 500,
        sets: QueueSets::NONE,
    };
    assert_eq!(notice, dropped);
}

#[test]
fn a_forced_report_is_the_clients_to_ask_for() {
    let mut head = head(LinkState::Registered);
    let grant = Grant {
        start: 1600,
        length: 200,
    };
    let gate = head.gate(3, &[grant], 1).unwrap().frames()[0];
    let mut floor_box = restored(&registered());
    let reply = floor_box.hear(&gate, 0).unwrap();
    let granted = BoxNotice::Grant(Granted { grant, force: true });
    assert!(reply.notices().eq([granted]) && reply.frames().is_empty());
    assert_eq!(floor_box.report(0, &[]).unwrap().frames().len(), 1);
}

#[test]
fn activation_ends_it() {
    // A box at rest with a grant that starts now: it is lit by the same call.
    let grant = Grant {
        start: 1000,
        length: 200,
    };
    let mut floor_box = restored(&BoxParts {
        grants: [grant].into(),
        ..registered()
    });
    floor_box.report(0, &[]).unwrap();
    let parts = floor_box.parts();
    let (left, length, sync) = (42, 200, 10);
    assert_eq!(parts.light, Light::Lit { left, length, sync });
    assert!(parts.grants.is_empty());
}

#[test]
fn a_box_hears_no_report() {
    let mut floor_box = restored(&registered());
    let heard = floor_box.hear(&frame_of(&body_of(2, &TWO_SETS)), 0);
    assert_eq!(heard, Err(Refusal::Direction));
    let past = frame_of(&body_of(40, &[0; 39]));
    assert_eq!(floor_box.hear(&past, 0), Err(Refusal::Range));
    assert_eq!(
        head(LinkState::Registered).hear(3, &past),
        Err(Refusal::Range)
    );
}
