//! The head's steps, worked by hand from the rules (R145 to R190).

use plain::frame::{read, write, AckFlag, RegisterFlag, RequestFlag};
use plain::{
    Address, Body, Count, Gate, GateRequest, Grant, Granted, Head, HeadAnswer, HeadNotice,
    HeadNoticeKind, Link, LinkState, Message, Newcomer, OpenWindow, QueueSets, Refusal, Window,
};

const HEAD: Address = Address(0x0A0B_0C0D_0E0F);
const BOX: Address = Address(0x0200_0000_0031);
const OTHER: Address = Address(0x0200_0000_0032);
/// A group's: the box's with the lowest bit of its first octet set.
const GROUP: Address = Address(0x0300_0000_0031);
/// A REPORT of no sets.
const EMPTY: Body = Body::Report(QueueSets::NONE);

/// A head with its lent table and output.
struct Desk {
    head: Head,
    links: Vec<Link>,
    output: Vec<u8>,
}

impl Desk {
    fn fresh(links: usize) -> Desk {
        let mut links = vec![Link::IDLE; links];
        let (head, answer) = Head::fresh(HEAD, &mut links);
        assert_eq!(answer, Ok(HeadAnswer::default()));
        let output = vec![0xEE; 60 * links.len()];
        Desk {
            head,
            links,
            output,
        }
    }

    /// One link, registered by this box.
    fn registered(links: usize) -> Desk {
        let mut desk = Desk::fresh(links);
        desk.links[0] = Link {
            state: LinkState::Registered,
            address: BOX,
            wait: 0,
            watchdog: 62_500_000,
            periodic: 3_125_000,
        };
        desk
    }

    fn tick(&mut self) -> HeadAnswer {
        self.head.tick(&mut self.links, &mut self.output).unwrap()
    }

    fn hear(&mut self, link: u64, from: Address, body: Body) -> Result<HeadAnswer, Refusal> {
        let message = Message {
            to: Address::EVERYONE,
            from,
            stamp: Count(0xFFFF_FFF0),
            body,
        };
        self.head
            .hear(&mut self.links, &mut self.output, link, &message)
    }

    fn admit(&mut self, address: Address) -> Result<HeadAnswer, Refusal> {
        let newcomer = Newcomer {
            address,
            pending: 16,
            sync: 9,
        };
        self.head
            .admit(&mut self.links, &mut self.output, &newcomer)
    }

    fn open(&mut self, start: u32, length: u32, window: u32) -> Result<HeadAnswer, Refusal> {
        let grant = Grant {
            start: Count(start),
            length,
        };
        self.open_window(OpenWindow {
            grant,
            sync: 0,
            window,
        })
    }

    fn open_window(&mut self, request: OpenWindow) -> Result<HeadAnswer, Refusal> {
        self.head
            .open_window(&self.links, &mut self.output, &request)
    }

    fn sent(&self, place: usize) -> Message {
        read(&self.output[60 * place..60 * place + 60]).unwrap()
    }
}

const ONE_FRAME: HeadAnswer = HeadAnswer {
    frames: 1,
    notice: None,
};

fn told(kind: HeadNoticeKind, link: u64, frames: usize) -> HeadAnswer {
    let notice = Some(HeadNotice {
        kind,
        link,
        trip: 19,
        sets: QueueSets::NONE,
    });
    HeadAnswer { frames, notice }
}

fn request(flag: RequestFlag) -> Body {
    Body::RegisterReq { flag, pending: 16 }
}

fn ack(flag: AckFlag) -> Body {
    Body::RegisterAck {
        flag,
        port: 900,
        sync: 901,
    }
}

fn gone(port: u16) -> Body {
    Body::Register {
        port,
        flag: RegisterFlag::Deregister,
        sync: 0,
        pending: 0,
    }
}

#[test]
fn fresh_head_tests_its_links_before_its_address() {
    let held = Link {
        address: BOX,
        ..Link::IDLE
    };
    let mut none: [Link; 0] = [];
    let (head, answer) = Head::fresh(Address::ZERO, &mut none);
    assert_eq!((head, answer), (Head::default(), Err(Refusal::Unsound)));
    let mut many = [held; 65];
    assert_eq!(Head::fresh(HEAD, &mut many).1, Err(Refusal::Unsound));
    let mut links = [held; 64];
    assert_eq!(
        Head::fresh(Address::ZERO, &mut links).1,
        Err(Refusal::OutOfRange)
    );
    assert_eq!(links, [held; 64]);
    assert!(Head::fresh(HEAD, &mut links).1.is_ok());
    assert_eq!(links, [Link::IDLE; 64]);
}

#[test]
fn window_waits_opens_and_closes() {
    let mut desk = Desk::fresh(1);
    assert_eq!(desk.open(2, 174, 3), Ok(ONE_FRAME));
    let grant = Grant {
        start: Count(2),
        length: 174,
    };
    let granted = Granted {
        grant,
        force: false,
    };
    let sent = desk.sent(0);
    assert_eq!(sent.to, Address::EVERYONE);
    assert_eq!(sent.body, Body::Discovery { granted, sync: 0 });
    assert_eq!(desk.open(2, 174, 3), Err(Refusal::NotNow));
    let before = |left| Window::Before { left, length: 3 };
    let inside = |left| Window::Inside { left };
    let expected = [before(1), inside(3), inside(2), inside(1), Window::Idle];
    assert_eq!(desk.head.window, before(2));
    for window in expected {
        desk.tick();
        assert_eq!(desk.head.window, window);
    }
}

#[test]
fn window_at_once_and_its_bounds() {
    let mut desk = Desk::fresh(1);
    for (start, length, window) in [
        (62_500_001, 106, 1),
        (0xFFFF_FFFF, 106, 1),
        (0, 105, 1),
        (0, 106, 0),
        (0, 106, 131_073),
    ] {
        assert_eq!(desk.open(start, length, window), Err(Refusal::BadGrant));
    }
    assert_eq!(desk.open(0, 65_536, 0), Err(Refusal::OutOfRange));
    assert_eq!(desk.open(0, 106, 131_072), Ok(ONE_FRAME));
    assert_eq!(desk.head.window, Window::Inside { left: 131_072 });
}

/// 32 + 65,429 + 42 + 32 is 65,535, the longest that a frame holds.
#[test]
fn the_longest_sync_that_a_window_serves() {
    let mut desk = Desk::fresh(1);
    let longest = Grant {
        start: Count(0),
        length: 65_535,
    };
    let asked = |sync| OpenWindow {
        grant: longest,
        sync,
        window: 1,
    };
    assert_eq!(desk.open_window(asked(65_430)), Err(Refusal::BadGrant));
    assert_eq!(desk.open_window(asked(65_429)), Ok(ONE_FRAME));
}

#[test]
fn admit_takes_the_lowest_idle_link() {
    let mut desk = Desk::registered(2);
    assert_eq!(desk.admit(Address::EVERYONE), Err(Refusal::OutOfRange));
    assert_eq!(desk.admit(Address::ZERO), Err(Refusal::OutOfRange));
    assert_eq!(desk.admit(Address(1 << 48)), Err(Refusal::OutOfRange));
    assert_eq!(desk.admit(BOX), Err(Refusal::AlreadyHeld));
    assert_eq!(desk.admit(OTHER), Ok(ONE_FRAME));
    let body = Body::Register {
        port: 2,
        flag: RegisterFlag::Ack,
        sync: 9,
        pending: 16,
    };
    assert_eq!(desk.sent(0).body, body);
    assert_eq!(desk.sent(0).to, OTHER);
    assert_eq!(desk.links[1].wait, 3_125_000);
    assert_eq!(desk.admit(HEAD), Err(Refusal::TableFull));
}

#[test]
fn reject_changes_no_state() {
    let mut desk = Desk::registered(1);
    let before = desk.links.clone();
    let newcomer = Newcomer {
        address: BOX,
        pending: 7,
        sync: 8,
    };
    let answer = desk.head.reject(&desk.links, &mut desk.output, &newcomer);
    assert_eq!(answer, Ok(ONE_FRAME));
    let body = Body::Register {
        port: 0,
        flag: RegisterFlag::Nack,
        sync: 8,
        pending: 7,
    };
    assert_eq!(desk.sent(0).body, body);
    assert_eq!(desk.links, before);
}

#[test]
fn requests_for_links_are_judged_by_state() {
    let mut desk = Desk::registered(2);
    for link in [0, 2, 3, 65_537, u64::MAX] {
        let answer = desk
            .head
            .deregister(&mut desk.links, &mut desk.output, link);
        assert_eq!(answer, Err(Refusal::NoSuchLink));
    }
    desk.head
        .reregister(&mut desk.links, &mut desk.output, 1, 5)
        .unwrap();
    let waiting = Link {
        state: LinkState::Waiting,
        address: BOX,
        wait: 3_125_000,
        ..Link::IDLE
    };
    assert_eq!(desk.links[0], waiting);
    let answer = desk
        .head
        .reregister(&mut desk.links, &mut desk.output, 1, 65_536);
    assert_eq!(answer, Err(Refusal::NotNow));
    let answer = desk.head.deregister(&mut desk.links, &mut desk.output, 1);
    assert_eq!(answer, Err(Refusal::NotNow));
}

#[test]
fn deregister_sends_a_farewell_and_idles() {
    let mut desk = Desk::registered(1);
    let answer = desk.head.deregister(&mut desk.links, &mut desk.output, 1);
    assert_eq!(answer, Ok(ONE_FRAME));
    assert_eq!((desk.sent(0).to, desk.sent(0).body), (BOX, gone(1)));
    assert_eq!(desk.links[0], Link::IDLE);
}

#[test]
fn gate_restarts_the_periodic_timer() {
    let mut desk = Desk::registered(1);
    desk.links[0].periodic = 5;
    let grant = Grant {
        start: Count(0x8000_0000),
        length: 1,
    };
    let asked = |asked, force| GateRequest {
        link: 1,
        force,
        asked,
        grants: [grant; 4],
    };
    let mut gate = |request| desk.head.gate(&mut desk.links, &mut desk.output, &request);
    assert_eq!(gate(asked(2, 0b100)), Err(Refusal::OutOfRange));
    assert_eq!(gate(asked(4, 0x10)), Err(Refusal::OutOfRange));
    assert_eq!(gate(asked(5, 0x10)), Err(Refusal::OutOfRange));
    assert_eq!(gate(asked(5, 0x0F)), Err(Refusal::BadGrant));
    assert_eq!(gate(asked(u64::MAX, 0)), Err(Refusal::BadGrant));
    assert_eq!(gate(asked(2, 0b10)), Ok(ONE_FRAME));
    let granted = |force| Granted { grant, force };
    let sent = Gate::of(&[granted(false), granted(true)]).unwrap();
    assert_eq!(desk.sent(0).body, Body::Gate(sent));
    assert_eq!(desk.links[0].periodic, 3_125_000);
}

#[test]
fn a_request_is_heard_inside_the_window_on_link_zero_only() {
    let mut desk = Desk::fresh(1);
    desk.head.count = Count(3);
    let asks = request(RequestFlag::Register);
    assert_eq!(desk.hear(1, BOX, asks), Err(Refusal::NoSuchLink));
    assert_eq!(desk.hear(0, BOX, asks), Err(Refusal::NotNow));
    desk.head.window = Window::Inside { left: 1 };
    let heard = told(HeadNoticeKind::Request, 0, 0);
    assert_eq!(desk.hear(0, BOX, asks), Ok(heard));
    assert_eq!(desk.hear(0, BOX, EMPTY), Err(Refusal::NoSuchLink));
}

#[test]
fn a_newcomer_is_individual_and_not_zero() {
    let mut desk = Desk::fresh(1);
    let asks = request(RequestFlag::Register);
    let wide = Address(BOX.0 | 1 << 48);
    // Outside the window 7 comes first.
    assert_eq!(desk.hear(0, GROUP, asks), Err(Refusal::NotNow));
    desk.head.window = Window::Inside { left: 1 };
    let (head, links) = (desk.head, desk.links.clone());
    for from in [Address::ZERO, GROUP, Address(0xFFFF_FFFF_FFFF), wide] {
        assert_eq!(desk.hear(0, from, asks), Err(Refusal::OutOfRange), "{from}");
    }
    assert_eq!((desk.head, desk.links), (head, links));
    assert_eq!(desk.output, [0xEE; 60]);
}

#[test]
fn a_newcomer_of_a_group_has_no_frame_that_is_read() {
    let (to, body) = (Address::EVERYONE, request(RequestFlag::Register));
    let stamp = Count(0);
    let asks = |from| Message {
        to,
        from,
        stamp,
        body,
    };
    assert_eq!(write(&asks(GROUP)), Err(Refusal::OutOfRange));
    let mut frame = write(&asks(BOX)).unwrap();
    frame[6] = 3;
    assert_eq!(read(&frame), Err(Refusal::OutOfRange));
}

/// A held link has an individual address, so 8 comes before 4.
#[test]
fn a_link_hears_no_group() {
    let mut desk = Desk::registered(1);
    for from in [Address::ZERO, GROUP] {
        let answer = desk.hear(1, from, EMPTY);
        assert_eq!(answer, Err(Refusal::NotMine), "{from}");
    }
}

#[test]
fn an_ack_registers_and_a_nack_drops() {
    for (flag, kind) in [
        (AckFlag::Ack, HeadNoticeKind::Registered),
        (AckFlag::Nack, HeadNoticeKind::Dropped),
    ] {
        let mut desk = Desk::fresh(1);
        desk.admit(BOX).unwrap();
        desk.head.count = Count(3);
        assert_eq!(desk.hear(1, OTHER, ack(flag)), Err(Refusal::NotMine));
        assert_eq!(desk.hear(1, BOX, ack(flag)), Ok(told(kind, 1, 1)));
        if flag == AckFlag::Ack {
            assert_eq!(desk.sent(0).body, Body::Gate(Gate::empty()));
            assert_eq!(desk.links, Desk::registered(1).links);
        } else {
            assert_eq!(desk.sent(0).body, gone(1));
            assert_eq!(desk.links[0], Link::IDLE);
        }
    }
}

#[test]
fn reports_restart_the_watchdog() {
    let mut desk = Desk::registered(1);
    desk.head.count = Count(3);
    desk.links[0].watchdog = 9;
    let heard = told(HeadNoticeKind::Report, 1, 0);
    assert_eq!(desk.hear(1, BOX, EMPTY), Ok(heard));
    assert_eq!(desk.links, Desk::registered(1).links);
}

#[test]
fn a_farewell_drops_a_registered_link() {
    let mut desk = Desk::registered(1);
    desk.head.count = Count(3);
    let leaves = request(RequestFlag::Deregister);
    let heard = told(HeadNoticeKind::Dropped, 1, 1);
    assert_eq!(desk.hear(1, BOX, leaves), Ok(heard));
    assert_eq!(desk.sent(0).body, gone(1));
    assert_eq!(desk.hear(1, BOX, leaves), Err(Refusal::NoSuchLink));
}

#[test]
fn messages_without_a_step_are_accepted() {
    let nothing = HeadAnswer::default();
    let mut waiting = Desk::fresh(1);
    waiting.admit(BOX).unwrap();
    assert_eq!(waiting.hear(1, BOX, EMPTY), Ok(nothing));
    let leaves = request(RequestFlag::Deregister);
    assert_eq!(waiting.hear(1, BOX, leaves), Ok(nothing));
    let mut registered = Desk::registered(1);
    assert_eq!(registered.hear(1, BOX, ack(AckFlag::Nack)), Ok(nothing));
}

#[test]
fn order_of_tests_at_the_head() {
    let mut desk = Desk::registered(1);
    let gate = Body::Gate(Gate::empty());
    desk.output.truncate(59);
    assert_eq!(desk.hear(9, OTHER, gate), Err(Refusal::ShortOutput));
    desk.output.push(0);
    assert_eq!(desk.hear(9, OTHER, gate), Err(Refusal::WrongWay));
    assert_eq!(desk.hear(9, OTHER, EMPTY), Err(Refusal::NoSuchLink));
    desk.links[0].wait = 1;
    desk.output.clear();
    assert_eq!(desk.hear(9, OTHER, gate), Err(Refusal::Unsound));
}

#[test]
fn dropping_comes_ahead_of_a_periodic_gate() {
    let mut desk = Desk::registered(1);
    desk.links[0].watchdog = 1;
    desk.links[0].periodic = 1;
    assert_eq!(desk.tick(), ONE_FRAME);
    assert_eq!(desk.sent(0).body, gone(1));
    assert_eq!(desk.links[0], Link::IDLE);
}

#[test]
fn frames_of_a_tick_are_packed_in_link_order() {
    let mut desk = Desk::registered(4);
    desk.links[0].periodic = 1;
    desk.links[3] = Link {
        state: LinkState::Waiting,
        address: OTHER,
        wait: 1,
        ..Link::IDLE
    };
    assert_eq!(desk.tick().frames, 2);
    assert_eq!(
        (desk.sent(0).to, desk.sent(0).body),
        (BOX, Body::Gate(Gate::empty()))
    );
    assert_eq!((desk.sent(1).to, desk.sent(1).body), (OTHER, gone(4)));
    assert_eq!(desk.sent(1).stamp, Count(1));
    assert_eq!(desk.output[120..], [0xEE; 120]);
    assert_eq!(desk.links[0].periodic, 3_125_000);
}

#[test]
fn refused_calls_change_nothing() {
    let mut desk = Desk::registered(2);
    desk.links[1] = desk.links[0];
    let (head, links) = (desk.head, desk.links.clone());
    let answer = desk.head.tick(&mut desk.links, &mut desk.output);
    assert_eq!(answer, Err(Refusal::Unsound));
    assert_eq!((desk.head, desk.links), (head, links));
    assert_eq!(desk.output, [0xEE; 120]);
}

#[test]
fn windows_outside_their_bounds_are_unsound() {
    let before = |left, length| Window::Before { left, length };
    let sound = [before(1, 1), before(62_500_000, 131_072)];
    let unsound = [
        before(0, 1),
        before(62_500_001, 1),
        before(1, 0),
        before(1, 131_073),
        Window::Inside { left: 0 },
        Window::Inside { left: 131_073 },
    ];
    let mut desk = Desk::fresh(1);
    for window in sound {
        desk.head.window = window;
        desk.tick();
    }
    for window in unsound {
        desk.head.window = window;
        let answer = desk.head.tick(&mut desk.links, &mut desk.output);
        assert_eq!(answer, Err(Refusal::Unsound), "{window:?}");
    }
}
