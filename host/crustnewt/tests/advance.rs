//! Many ticks in one call; answers worked by hand from the rules.

use crustnewt::sys::{self, BoxMemory, HeadMemory, MOST_TICKS};
use crustnewt::{
    Advanced, ArrayTable, Body, BoxNotice, BoxParts, BoxState, FloorBox, Frame, Grant, Head,
    HeadParts, Light, Link, LinkState, Message, QueueSets, Refusal, RegisterFlag, Table, UpTo,
    Window,
};

const HEAD: u64 = 0x0200_0000_0001;
const BOX: u64 = 0x0200_0000_0031;
const OTHER: u64 = 0x0200_0000_0032;

const WATCHDOG: u32 = 62_500_000;
const PERIOD: u32 = 3_125_000;

/// Numbers of ticks that are refused. The last are 0, 1 and 2 in 32 bits.
const OUTSIDE: [u64; 6] = [0, 65_537, u64::MAX, 1 << 32, (1 << 32) + 1, (1 << 32) + 2];

fn registered(count: u32) -> BoxParts {
    BoxParts {
        address: BOX,
        count,
        state: BoxState::Registered,
        wait: 0,
        watchdog: WATCHDOG,
        report: PERIOD,
        port: 1,
        sync: 10,
        light: Light::Rest,
        grants: UpTo::default(),
    }
}

/// A REPORT comes in 100 ticks.
fn reporting() -> FloorBox {
    let report = 100;
    restored(BoxParts {
        report,
        ..registered(1000)
    })
}

/// Handed in: no box comes to transmit for discovery when it isn't REGISTERING.
fn warming(left: u32) -> FloorBox {
    let light = Light::Warming { left };
    restored(BoxParts {
        light,
        ..registered(0)
    })
}

fn fading(left: u32) -> Light {
    Light::Fading { left }
}

fn restored(parts: BoxParts) -> FloorBox {
    FloorBox::restored(&parts).unwrap()
}

fn held(address: u64, periodic: u32) -> Link {
    Link::registered(address, WATCHDOG, periodic)
}

fn head<const LINKS: usize>(window: Window, links: [Link; LINKS]) -> Head<ArrayTable<LINKS>> {
    let (address, count) = (HEAD, 0);
    let parts = HeadParts {
        address,
        count,
        window,
    };
    let table = ArrayTable::from_words(links.map(|link| link.words()));
    Head::restored(&parts, table).unwrap()
}

fn idle<const LINKS: usize>() -> Head<ArrayTable<LINKS>> {
    Head::fresh(HEAD, ArrayTable::new()).unwrap()
}

/// Its stamp, and what it says.
fn read(frame: &Frame) -> (u32, Body) {
    let mut message = Message::default();
    message.read(frame).unwrap();
    (message.stamp(), message.body())
}

#[test]
fn a_box_goes_on_without_a_word() {
    let mut floor_box = reporting();
    let Advanced { reply, made } = floor_box.advance(50).unwrap();
    assert_eq!(made, 50);
    assert!(reply.frames().is_empty() && reply.notices().next().is_none());
    assert_eq!(reply.drift(), 0);
    let parts = floor_box.parts();
    assert_eq!((parts.count, parts.watchdog), (1050, 62_499_950));
    assert_eq!(parts.report, 50);
}

#[test]
fn a_box_stops_at_a_frame_with_the_stamp_of_its_tick() {
    let mut floor_box = reporting();
    let Advanced { reply, made } = floor_box.advance(MOST_TICKS).unwrap();
    assert_eq!(made, 100);
    assert_eq!(reply.frames().len(), 1);
    assert_eq!(
        read(&reply.frames()[0]),
        (1100, Body::Report(QueueSets::NONE))
    );
    assert!(reply.notices().next().is_none());
    let parts = floor_box.parts();
    assert_eq!((parts.watchdog, parts.report), (62_499_900, 3_125_000));
}

#[test]
fn a_box_stops_at_a_notice_and_not_at_its_laser() {
    let (left, sync) = (10, 10);
    let grant = Grant {
        start: 1100,
        length: 200,
    };
    let mut floor_box = restored(BoxParts {
        light: Light::Due { left, grant, sync },
        grants: [grant].into(),
        ..registered(1090)
    });
    assert_eq!(floor_box.ticks_until(), 9);
    let Advanced { reply, made } = floor_box.advance(MOST_TICKS).unwrap();
    assert_eq!(made, 52);
    assert!(reply.notices().eq([BoxNotice::Open]));
    assert!(reply.frames().is_empty());
    let parts = floor_box.parts();
    assert_eq!(parts.count, 1142);
    assert_eq!(parts.light, Light::Open { left: 126 });
    assert!(parts.grants.is_empty());
    let Advanced { reply, made } = floor_box.advance(MOST_TICKS).unwrap();
    assert!(made == 126 && reply.notices().eq([BoxNotice::Close]));
    let parts = floor_box.parts();
    assert_eq!((parts.count, parts.light), (1268, fading(32)));
}

/// Its light goes out, and the next grant is lit, without a word.
#[test]
fn a_box_fades_on_the_way() {
    let (length, sync) = (116, 10);
    let next = Grant {
        start: 1300,
        length,
    };
    let closed = restored(BoxParts {
        light: fading(32),
        grants: [next].into(),
        ..registered(1268)
    });
    assert_eq!(closed.ticks_until(), 31);
    let lit = |left| Light::Lit { left, length, sync };
    for (ticks, light) in [(31, fading(1)), (32, lit(42)), (33, lit(41))] {
        let mut floor_box = closed.clone();
        let Advanced { reply, made } = floor_box.advance(ticks).unwrap();
        assert!(made == ticks && reply.notices().next().is_none());
        assert_eq!(floor_box.parts().light, light);
    }
    let mut floor_box = closed;
    let Advanced { reply, made } = floor_box.advance(MOST_TICKS).unwrap();
    assert!(made == 74 && reply.notices().eq([BoxNotice::Open]));
}

#[test]
fn a_box_stops_before_a_tick_that_would_be_refused() {
    let mut floor_box = warming(5);
    let Advanced { reply, made } = floor_box.advance(10).unwrap();
    assert_eq!(made, 4);
    assert!(reply.frames().is_empty() && reply.notices().next().is_none());
    let parts = floor_box.parts();
    assert_eq!((parts.count, parts.light), (4, Light::Warming { left: 1 }));
    assert_eq!((parts.watchdog, parts.report), (62_499_996, 3_124_996));
    let before = floor_box.clone();
    assert_eq!(floor_box.advance(10), Err(Refusal::Window));
    assert_eq!(floor_box, before);
}

#[test]
fn a_count_wraps_on_the_way() {
    let mut parts = FloorBox::fresh(BOX).unwrap().parts();
    parts.count = u32::MAX;
    let mut floor_box = restored(parts);
    assert_eq!(floor_box.ticks_until(), 65_536);
    assert_eq!(floor_box.advance(MOST_TICKS).unwrap().made, 65_536);
    assert_eq!(floor_box.count(), 65_535);
}

#[test]
fn a_head_stops_at_a_frame_and_not_at_its_window() {
    let before = Window::Before {
        left: 10,
        length: 5,
    };
    let mut head = head(before, [held(BOX, 40), Link::waiting(OTHER, 30)]);
    assert_eq!(head.ticks_until(), 29);
    let Advanced { reply, made } = head.advance(MOST_TICKS).unwrap();
    assert_eq!(made, 30);
    assert_eq!((reply.frames().len(), reply.notice()), (1, None));
    let mut message = Message::default();
    message.read(&reply.frames()[0]).unwrap();
    assert_eq!((message.to(), message.stamp()), (OTHER, 30));
    let (flag, port, sync, pending) = (RegisterFlag::Deregister, 2, 0, 0);
    let farewell = Body::Register {
        flag,
        port,
        sync,
        pending,
    };
    assert_eq!(message.body(), farewell);
    let parts = head.parts();
    assert_eq!((parts.count, parts.window), (30, Window::Idle));
    let first = head.link(1).unwrap();
    assert_eq!((first.watchdog, first.periodic), (62_499_970, 10));
    assert_eq!(head.link(2).unwrap().state, LinkState::Idle);
}

#[test]
fn a_head_without_boxes_goes_as_far_as_it_is_asked() {
    let mut head = idle::<3>();
    assert_eq!(head.ticks_until(), 65_536);
    let Advanced { reply, made } = head.advance(MOST_TICKS).unwrap();
    assert!(made == 65_536 && reply.frames().is_empty());
    assert_eq!(head.parts().count, 65_536);
    for ticks in OUTSIDE {
        assert_eq!(head.advance(ticks), Err(Refusal::Grant), "{ticks}");
    }
    assert_eq!(head.parts().count, 65_536);
}

#[test]
fn links_that_ring_together_are_told_together() {
    let mut head = head(Window::Idle, [held(BOX, 7), held(OTHER, 7)]);
    assert_eq!(head.ticks_until(), 6);
    let Advanced { reply, made } = head.advance(9).unwrap();
    assert_eq!(made, 7);
    let gate = (7, Body::Gate(UpTo::default()));
    assert!(reply.frames().iter().map(read).eq([gate, gate]));
    let addresses = reply.frames().iter().map(|frame| frame[..6].to_vec());
    assert!(addresses.eq([BOX, OTHER].map(|address| address.to_be_bytes()[2..].to_vec())));
}

#[test]
fn what_is_quiet_reaches_to_the_first_end() {
    for (report, quiet) in [
        (1, 0),
        (2, 1),
        (65_536, 65_535),
        (65_537, 65_536),
        (PERIOD, 65_536),
    ] {
        let parts = BoxParts {
            report,
            ..registered(0)
        };
        assert_eq!(restored(parts).ticks_until(), quiet, "{report}");
        let head = head(Window::Idle, [held(BOX, report)]);
        assert_eq!(head.ticks_until(), quiet, "{report}");
    }
    // A grant is chosen at the next tick.
    let grant = Grant {
        start: 5000,
        length: 200,
    };
    let parts = BoxParts {
        grants: [grant].into(),
        ..registered(0)
    };
    assert_eq!(restored(parts).ticks_until(), 0);
    // The next tick would be refused.
    assert_eq!(warming(1).ticks_until(), 0);
    assert_eq!(warming(5).ticks_until(), 4);
}

/// A block and what is lent beside it, with something in it that shows whether
/// it was touched.
#[derive(Clone, Debug, PartialEq)]
struct BoxLent {
    block: Vec<u64>,
    frames: Vec<u8>,
    reply: Vec<u64>,
    made: Vec<u64>,
}

impl BoxLent {
    fn of(floor_box: &FloorBox) -> BoxLent {
        BoxLent {
            block: floor_box.words().to_vec(),
            frames: vec![0xEE; sys::BOX_FRAMES_OCTETS],
            reply: vec![77; sys::BOX_REPLY_WORDS],
            made: vec![77; 2],
        }
    }

    fn advance(&mut self, ticks: u64) -> u8 {
        let memory = BoxMemory {
            block: &mut self.block,
            frames: &mut self.frames,
            reply: &mut self.reply,
        };
        sys::box_advance(ticks, memory, &mut self.made)
    }
}

/// The same for a head.
#[derive(Clone, Debug, PartialEq)]
struct HeadLent {
    head: Vec<u64>,
    links: Vec<u64>,
    output: Vec<u8>,
    reply: Vec<u64>,
    made: Vec<u64>,
}

impl HeadLent {
    fn of<T: Table>(head: &Head<T>) -> HeadLent {
        HeadLent {
            head: head.words().to_vec(),
            links: head.table().words().to_vec(),
            output: vec![0xEE; head.links().len() * sys::FRAME_OCTETS],
            reply: vec![77; sys::HEAD_REPLY_WORDS],
            made: vec![77; 2],
        }
    }

    fn advance(&mut self, ticks: u64) -> u8 {
        let memory = HeadMemory {
            head: &mut self.head,
            links: &mut self.links,
            output: &mut self.output,
            reply: &mut self.reply,
        };
        sys::head_advance(ticks, memory, &mut self.made)
    }
}

/// The number, and that nothing was changed and nothing made.
fn require_box_refusal(mut lent: BoxLent, ticks: u64, number: u8) {
    let before = lent.clone();
    assert_eq!(lent.advance(ticks), number, "{ticks}");
    assert_eq!((lent.block, lent.frames), (before.block, before.frames));
    assert_eq!(lent.reply[..3], [0; 3]);
    assert_eq!(lent.made, [0, 77]);
}

fn require_head_refusal(mut lent: HeadLent, ticks: u64, number: u8) {
    let before = lent.clone();
    assert_eq!(lent.advance(ticks), number, "{ticks}");
    assert_eq!((lent.head, lent.links), (before.head, before.links));
    assert_eq!(lent.output, before.output);
    assert_eq!(lent.reply[..2], [0; 2]);
    assert_eq!(lent.made, [0, 77]);
}

#[test]
fn a_box_tests_13_then_9_then_14() {
    let mut unsound = BoxLent::of(&reporting());
    unsound.block[0] = 0;
    require_box_refusal(unsound.clone(), 1, 13);
    for ticks in OUTSIDE {
        require_box_refusal(unsound.clone(), ticks, 13);
        require_box_refusal(BoxLent::of(&reporting()), ticks, 9);
        require_box_refusal(BoxLent::of(&warming(1)), ticks, 9);
    }
    for ticks in [1, 10, MOST_TICKS] {
        require_box_refusal(BoxLent::of(&warming(1)), ticks, 14);
    }
    // A later one doesn't refuse: it is stopped before, and that is told.
    let mut later = BoxLent::of(&warming(5));
    assert_eq!((later.advance(10), &later.made[..]), (0, &[4, 77][..]));
    require_box_refusal(
        BoxLent {
            made: vec![77; 2],
            ..later
        },
        10,
        14,
    );
}

#[test]
fn a_head_tests_13_then_12_then_9() {
    let mut unsound = HeadLent::of(&idle::<2>());
    unsound.links[1] = 1;
    unsound.output.pop();
    let mut short = HeadLent::of(&idle::<2>());
    short.output.pop();
    for ticks in OUTSIDE {
        require_head_refusal(unsound.clone(), ticks, 13);
        require_head_refusal(short.clone(), ticks, 12);
        require_head_refusal(HeadLent::of(&idle::<2>()), ticks, 9);
    }
    require_head_refusal(unsound, 1, 13);
    require_head_refusal(short, 1, 12);
    for links in [0, 65] {
        let mut none = HeadLent::of(&idle::<2>());
        none.links = vec![0; links * sys::LINK_WORDS];
        require_head_refusal(none, 0, 13);
    }
}

#[test]
fn octets_behind_the_frames_of_the_last_tick_stay() {
    let mut lent = HeadLent::of(&head(Window::Idle, [held(BOX, 7), held(OTHER, 9)]));
    lent.output.extend([0xEE; 3]);
    assert_eq!(lent.advance(MOST_TICKS), 0);
    assert_eq!((lent.made[..] == [7, 77], lent.reply[0]), (true, 1));
    assert_eq!(lent.output[sys::FRAME_OCTETS..], [0xEE; 63]);
    let mut silent = HeadLent::of(&idle::<2>());
    assert_eq!((silent.advance(9), silent.made[0]), (0, 9));
    assert_eq!(silent.output, [0xEE; 120]);
    let mut lent = BoxLent::of(&reporting());
    assert_eq!((lent.advance(100), lent.made[0]), (0, 100));
    assert_eq!(lent.frames[sys::FRAME_OCTETS..], [0xEE; 60]);
}

#[test]
fn too_little_for_an_advance_is_100_and_touches_nothing() {
    type Shorten<T> = fn(&mut T);
    let of_box: [Shorten<BoxLent>; 4] = [
        |lent| lent.block.truncate(sys::BOX_WORDS - 1),
        |lent| lent.frames.truncate(sys::BOX_FRAMES_OCTETS - 1),
        |lent| lent.reply.truncate(sys::BOX_REPLY_WORDS - 1),
        |lent| lent.made.clear(),
    ];
    for ticks in [0, 1, MOST_TICKS] {
        for shorten in of_box {
            let mut lent = BoxLent::of(&reporting());
            shorten(&mut lent);
            let before = lent.clone();
            assert_eq!(lent.advance(ticks), 100);
            assert_eq!(lent, before);
        }
    }
    let of_head: [Shorten<HeadLent>; 3] = [
        |lent| lent.head.truncate(sys::HEAD_WORDS - 1),
        |lent| lent.reply.truncate(sys::HEAD_REPLY_WORDS - 1),
        |lent| lent.made.clear(),
    ];
    for ticks in [0, 1, MOST_TICKS] {
        for shorten in of_head {
            let mut lent = HeadLent::of(&idle::<2>());
            shorten(&mut lent);
            let before = lent.clone();
            assert_eq!(lent.advance(ticks), 100);
            assert_eq!(lent, before);
        }
    }
}

#[test]
fn nothing_is_sure_of_too_little() {
    let floor_box = FloorBox::fresh(BOX).unwrap();
    assert_eq!(sys::box_ticks_until(floor_box.words()), 65_536);
    assert_eq!(sys::box_ticks_until(&floor_box.words()[1..]), 0);
    let head = idle::<2>();
    let (words, links) = (head.words(), head.table().words());
    assert_eq!(sys::head_ticks_until(words, links), 65_536);
    assert_eq!(sys::head_ticks_until(&words[..4], links), 0);
    assert_eq!(sys::head_ticks_until(words, &links[..4]), 0);
    assert_eq!(sys::head_ticks_until(words, &[0; 65 * sys::LINK_WORDS]), 0);
}
