//! Queue sets in a REPORT, worked by hand from the rules: its body (R32, R41,
//! R239 to R241), the box's client (R242, R243) and the head (R151, R185).

use plain::frame::{read, write};
use plain::{
    Address, Body, BoxAnswer, BoxNotice, BoxState, Count, FloorBox, Frame, Gate, Grant, GrantList,
    Granted, Head, HeadAnswer, HeadNotice, HeadNoticeKind, Light, Link, LinkState, Message,
    QueueSet, QueueSets, Refusal,
};

const BOX: Address = Address(0x0213_4657_8A9B);
const HEAD: Address = Address(0x0A0B_0C0D_0E0F);
/// Queues 0 and 2 with 258 and 772, then queue 7 with 65,535.
const TWO_SETS: [u8; 8] = [0x05, 1, 2, 3, 4, 0x80, 0xFF, 0xFF];

/// The frame of a REPORT of this box at count 1000: the number, the sets, and
/// zeros.
fn frame(number: u8, sets: &[u8]) -> Frame {
    let mut frame = [0; 60];
    frame[..12].copy_from_slice(&[1, 0x80, 0xC2, 0, 0, 1, 2, 0x13, 0x46, 0x57, 0x8A, 0x9B]);
    frame[12..20].copy_from_slice(&[0x88, 0x08, 0, 3, 0, 0, 3, 0xE8]);
    frame[20] = number;
    frame[21..21 + sets.len()].copy_from_slice(sets);
    frame
}

fn report(sets: QueueSets) -> Message {
    Message {
        to: Address::EVERYONE,
        from: BOX,
        stamp: Count(1000),
        body: Body::Report(sets),
    }
}

/// A message of these forty octets, in range or not.
fn unjudged(number: u8, sets: &[u8]) -> Message {
    let mut octets = [0; 40];
    octets.copy_from_slice(&frame(number, sets)[20..]);
    report(QueueSets::of_octets(octets))
}

fn two_sets() -> QueueSets {
    QueueSets::of(2, &TWO_SETS).unwrap()
}

fn registered() -> FloorBox {
    FloorBox {
        address: BOX,
        count: Count(1000),
        state: BoxState::Registered,
        watchdog: 40_000_000,
        report: 7,
        port: 3,
        ..FloorBox::default()
    }
}

/// The reader takes these sets, and the writer gives them back.
fn fits(number: u8, sets: &[u8]) {
    let message = report(QueueSets::of(number, sets).unwrap());
    assert_eq!(message, unjudged(number, sets));
    assert_eq!(read(&frame(number, sets)), Ok(message));
    assert_eq!(write(&message), Ok(frame(number, sets)));
}

/// Nobody takes these sets.
fn runs_past(number: u8, sets: &[u8]) {
    assert_eq!(read(&frame(number, sets)), Err(Refusal::OutOfRange));
    assert_eq!(write(&unjudged(number, sets)), Err(Refusal::OutOfRange));
    assert_eq!(QueueSets::of(number, sets), None);
    assert_eq!(
        registered().report(number, sets),
        Err(Refusal::OutOfRange),
        "{number} {sets:?}"
    );
}

/// Two sets of eight queues of length 0, and behind them these octets.
fn behind_two_full(rest: &[u8]) -> Vec<u8> {
    let full = [&[0xFF][..], &[0; 16]].concat();
    [&full, &full, rest].concat()
}

#[test]
fn two_sets_are_read_lowest_queue_first() {
    fits(2, &TWO_SETS);
    let sets: Vec<QueueSet> = two_sets().iter().collect();
    let first = QueueSet {
        bitmap: 5,
        lengths: [258, 0, 772, 0, 0, 0, 0, 0],
    };
    let second = QueueSet {
        bitmap: 128,
        lengths: [0, 0, 0, 0, 0, 0, 0, 65_535],
    };
    assert_eq!(sets, [first, second]);
    assert_eq!(first.queues().collect::<Vec<_>>(), [(0, 258), (2, 772)]);
    assert_eq!(two_sets().number(), 2);
}

#[test]
fn a_queue_may_stand_in_several_sets() {
    fits(3, &[1, 0, 7, 1, 0, 8, 0]);
    let sets = QueueSets::of(3, &[1, 0, 7, 1, 0, 8, 0]).unwrap();
    let lengths: Vec<u16> = sets.iter().map(|set| set.lengths[0]).collect();
    assert_eq!(lengths, [7, 8, 0]);
}

#[test]
fn thirty_nine_empty_sets_fit_and_forty_do_not() {
    fits(39, &[0; 39]);
    assert_eq!(QueueSets::of(39, &[0; 39]).unwrap().iter().count(), 39);
    runs_past(40, &[0; 39]);
    runs_past(255, &[0; 39]);
    assert_eq!(QueueSets::of(40, &[0; 40]), None);
    assert_eq!(QueueSets::of(255, &[0; 255]), None);
}

#[test]
fn thirteen_sets_of_one_queue_fit_and_fourteen_do_not() {
    let thirteen = [1, 0, 0].repeat(13);
    fits(13, &thirteen);
    runs_past(14, &thirteen);
    assert_eq!(QueueSets::of(14, &[1, 0, 0].repeat(14)), None);
}

#[test]
fn two_full_sets_have_two_queues_behind_them_and_not_three() {
    fits(2, &behind_two_full(&[]));
    fits(3, &behind_two_full(&[3, 0, 0, 0, 0]));
    runs_past(3, &behind_two_full(&[7, 0, 0, 0, 0]));
    let seven_octets = behind_two_full(&[7, 0, 0, 0, 0, 0, 0]);
    assert_eq!(QueueSets::of(3, &seven_octets), None);
}

#[test]
fn the_last_octet_may_be_an_empty_set_and_no_other() {
    fits(5, &behind_two_full(&[1, 0, 0, 0, 0]));
    runs_past(5, &behind_two_full(&[1, 0, 0, 0, 1]));
    runs_past(6, &behind_two_full(&[1, 0, 0, 0, 0]));
}

#[test]
fn pad_behind_the_sets_is_not_looked_at() {
    let zeroed = frame(2, &TWO_SETS);
    let mut padded = zeroed;
    padded[29..].fill(0xFF);
    assert_eq!(read(&padded), Ok(report(two_sets())));
    assert_eq!(write(&read(&padded).unwrap()), Ok(zeroed));
    let empty = read(&frame(0, &[0xA5; 39])).unwrap();
    assert_eq!(empty, report(QueueSets::NONE));
    assert_eq!(write(&empty), Ok(frame(0, &[])));
}

#[test]
fn a_message_is_zero_behind_its_sets() {
    for (number, octets) in [
        (0, [&[0; 38][..], &[1]].concat()),
        (2, [&TWO_SETS[..], &[1]].concat()),
        (1, [&[0; 1][..], &[0x80]].concat()),
    ] {
        let refused = write(&unjudged(number, &octets));
        assert_eq!(refused, Err(Refusal::OutOfRange), "{number} {octets:?}");
    }
}

#[test]
fn sets_that_run_past_are_told_up_to_there() {
    let full = behind_two_full(&[7, 0, 0, 0, 0]);
    let Body::Report(sets) = unjudged(3, &full).body else {
        panic!("it is a REPORT")
    };
    let bitmaps: Vec<u8> = sets.iter().map(|set| set.bitmap).collect();
    assert_eq!(bitmaps, [0xFF, 0xFF]);
}

#[test]
fn size_type_and_opcode_come_before_the_sets() {
    let past = frame(40, &[]);
    assert_eq!(read(&past[..59]), Err(Refusal::NotSixtyOctets));
    let with = |place: usize, octet: u8| {
        let mut past = past;
        past[place] = octet;
        read(&past)
    };
    assert_eq!(with(13, 9), Err(Refusal::NotControl));
    assert_eq!(with(15, 7), Err(Refusal::UnknownOpcode));
    assert_eq!(with(15, 3), Err(Refusal::OutOfRange));
}

#[test]
fn a_client_reports_and_its_timer_starts_again() {
    let mut floor_box = registered();
    let answer = floor_box.report(2, &TWO_SETS).unwrap();
    let frames: Vec<Frame> = answer.frames.iter().copied().collect();
    assert_eq!(frames, [frame(2, &TWO_SETS)]);
    assert!(answer.notices.is_empty());
    assert_eq!(answer.drift, 0);
    let after = FloorBox {
        report: 3_125_000,
        ..registered()
    };
    assert_eq!(floor_box, after);
}

#[test]
fn no_sets_are_an_empty_report() {
    let mut floor_box = registered();
    let answer = floor_box.report(0, &[]).unwrap();
    let frames: Vec<Frame> = answer.frames.iter().copied().collect();
    assert_eq!(frames, [frame(0, &[])]);
    assert_eq!(floor_box.report, 3_125_000);
}

#[test]
fn the_sets_are_exactly_so_many() {
    for (number, sets) in [
        (0, &[0][..]),
        (1, &[]),
        (1, &TWO_SETS),
        (3, &TWO_SETS),
        (2, &TWO_SETS[..7]),
        (2, &TWO_SETS[..5]),
    ] {
        let mut floor_box = registered();
        let answer = floor_box.report(number, sets);
        assert_eq!(answer, Err(Refusal::OutOfRange), "{number} {sets:?}");
        assert_eq!(floor_box, registered());
    }
}

#[test]
fn a_report_is_tested_for_13_then_7_then_4() {
    let forty = [0; 40];
    let (mut waiting, _) = FloorBox::fresh(BOX);
    assert_eq!(waiting.report(40, &forty), Err(Refusal::NotNow));
    assert_eq!(waiting.report(2, &TWO_SETS), Err(Refusal::NotNow));
    assert_eq!(waiting, FloorBox::fresh(BOX).0);
    let mut registering = FloorBox {
        state: BoxState::Registering,
        ..waiting
    };
    assert_eq!(registering.report(0, &[]), Err(Refusal::NotNow));
    let mut requesting = FloorBox {
        state: BoxState::Requesting,
        wait: 1,
        ..waiting
    };
    assert_eq!(requesting.report(0, &[]), Err(Refusal::NotNow));
    assert_eq!(registered().report(40, &forty), Err(Refusal::OutOfRange));
    waiting.wait = 1;
    assert_eq!(waiting.report(40, &forty), Err(Refusal::Unsound));
    let mut unsound = FloorBox {
        report: 3_125_001,
        ..registered()
    };
    assert_eq!(unsound.report(40, &forty), Err(Refusal::Unsound));
}

#[test]
fn a_report_leaves_an_open_window_alone() {
    let mut floor_box = FloorBox {
        light: Light::Open { left: 50 },
        ..registered()
    };
    floor_box.report(2, &TWO_SETS).unwrap();
    assert_eq!(floor_box.light, Light::Open { left: 50 });
}

/// Of the three grants the first is past, and the third begins now.
#[test]
fn activation_ends_a_report() {
    let grant = |start| Grant {
        start: Count(start),
        length: 120,
    };
    let mut floor_box = FloorBox {
        grants: GrantList::of(&[grant(999), grant(2000), grant(1000)]).unwrap(),
        ..registered()
    };
    let answer = floor_box.report(0, &[]).unwrap();
    assert!(answer.notices.is_empty());
    let lit = Light::Lit {
        left: 32,
        length: 120,
        sync: 0,
    };
    assert_eq!(floor_box.light, lit);
    assert_eq!(floor_box.grants.as_slice(), [grant(2000)]);
}

#[test]
fn a_force_bit_sends_no_report() {
    let granted = Granted {
        grant: Grant {
            start: Count(5000),
            length: 120,
        },
        force: true,
    };
    let gate = Message {
        to: BOX,
        from: HEAD,
        stamp: Count(1000),
        body: Body::Gate(Gate::of(&[granted]).unwrap()),
    };
    let mut floor_box = registered();
    let answer = floor_box.hear(&gate, 0).unwrap();
    let mut told = BoxAnswer::default();
    told.notices.push(BoxNotice::Grant(granted));
    assert_eq!(answer, told);
    assert_eq!(floor_box.report, 7);
}

#[test]
fn the_next_periodic_report_is_empty() {
    let mut floor_box = registered();
    floor_box.report(2, &TWO_SETS).unwrap();
    floor_box.report = 1;
    let answer = floor_box.tick().unwrap();
    let frames: Vec<Frame> = answer.frames.iter().copied().collect();
    let mut empty = frame(0, &[]);
    empty[19] = 0xE9;
    assert_eq!(frames, [empty]);
}

#[test]
fn a_box_hears_no_report() {
    let before = registered();
    for sets in [two_sets(), QueueSets::of_octets([0xFF; 40])] {
        let mut floor_box = before;
        let heard = Message {
            to: BOX,
            from: HEAD,
            ..report(sets)
        };
        assert_eq!(floor_box.hear(&heard, 0), Err(Refusal::WrongWay));
        assert_eq!(floor_box, before);
    }
}

/// A head at count 1500 whose third of three links is this one.
fn desk(third: Link) -> (Head, [Link; 3]) {
    let head = Head {
        address: HEAD,
        count: Count(1500),
        ..Head::default()
    };
    (head, [Link::IDLE, Link::IDLE, third])
}

const REGISTERED: Link = Link {
    state: LinkState::Registered,
    address: BOX,
    wait: 0,
    watchdog: 9,
    periodic: 8,
};

/// What the head with this third link answers to a message on a link, and the
/// third link then.
fn heard(third: Link, link: u64, message: &Message) -> (Result<HeadAnswer, Refusal>, Link) {
    let (mut head, mut links) = desk(third);
    let mut output = [0xEE; 180];
    let answer = head.hear(&mut links, &mut output, link, message);
    assert_eq!(head, desk(third).0);
    assert_eq!(output, [0xEE; 180]);
    (answer, links[2])
}

#[test]
fn the_head_tells_the_sets() {
    for sets in [two_sets(), QueueSets::NONE] {
        let (answer, link) = heard(REGISTERED, 3, &report(sets));
        let notice = HeadNotice {
            kind: HeadNoticeKind::Report,
            link: 3,
            trip: 500,
            sets,
        };
        let told = HeadAnswer {
            frames: 0,
            notice: Some(notice),
        };
        assert_eq!(answer, Ok(told));
        let watched = Link {
            watchdog: 62_500_000,
            ..REGISTERED
        };
        assert_eq!(link, watched);
    }
}

#[test]
fn a_waiting_link_has_no_step_for_a_report() {
    let waiting = Link {
        state: LinkState::Waiting,
        address: BOX,
        wait: 5,
        ..Link::IDLE
    };
    let (answer, link) = heard(waiting, 3, &report(two_sets()));
    assert_eq!(answer, Ok(HeadAnswer::default()));
    assert_eq!(link, waiting);
}

#[test]
fn the_head_tests_a_report_for_6_then_8_then_4() {
    let past = unjudged(40, &[]);
    let padded = unjudged(0, &[0, 1]);
    let strange = Message { to: BOX, ..past };
    for (link, message, refusal) in [
        (0, &strange, Refusal::NoSuchLink),
        (2, &strange, Refusal::NoSuchLink),
        (4, &strange, Refusal::NoSuchLink),
        (3, &strange, Refusal::NotMine),
        (3, &past, Refusal::OutOfRange),
        (3, &padded, Refusal::OutOfRange),
    ] {
        let (answer, third) = heard(REGISTERED, link, message);
        assert_eq!(answer, Err(refusal), "{link} {message:?}");
        assert_eq!(third, REGISTERED);
    }
}
