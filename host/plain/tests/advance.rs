//! Advance, worked by hand from the rules (R191 to R195), and held against
//! single ticks from many states.

use plain::frame::{read, RegisterFlag, RequestFlag};
use plain::{
    Address, Advanced, Body, BoxAnswer, BoxNotice, BoxState, Count, FloorBox, Grant, GrantList,
    Head, HeadAnswer, Light, Link, LinkState, Message, QueueSets, Refusal, Window,
};

const HEAD: Address = Address(0x0A0B_0C0D_0E0F);
const BOX: Address = Address(0x0200_0000_0031);
const OTHER: Address = Address(0x0200_0000_0032);
/// A REPORT of no sets.
const EMPTY: Body = Body::Report(QueueSets::NONE);

fn grant(start: u32, length: u32) -> Grant {
    let start = Count(start);
    Grant { start, length }
}

/// In WAIT at this count.
fn waiting(count: u32) -> FloorBox {
    FloorBox {
        address: BOX,
        count: Count(count),
        ..FloorBox::default()
    }
}

fn registered(count: u32, watchdog: u32, report: u32) -> FloorBox {
    FloorBox {
        state: BoxState::Registered,
        watchdog,
        report,
        ..waiting(count)
    }
}

fn requesting(wait: u32) -> FloorBox {
    FloorBox {
        state: BoxState::Requesting,
        wait,
        ..waiting(0)
    }
}

/// Advances a box that isn't refused: ticks made, frames and notices.
fn advance(floor_box: &mut FloorBox, ticks: u64) -> (u32, Vec<Message>, Vec<BoxNotice>) {
    let Advanced { answer, made } = floor_box.advance(ticks).unwrap();
    let frames = answer.frames.iter().map(|frame| read(frame).unwrap());
    let notices = answer.notices.iter().copied().collect();
    (made, frames.collect(), notices)
}

/// A head with its lent table and output.
#[derive(Clone, Debug, PartialEq, Eq)]
struct Desk {
    head: Head,
    links: Vec<Link>,
    output: Vec<u8>,
}

impl Desk {
    fn of(window: Window, links: &[Link]) -> Desk {
        let head = Head {
            address: HEAD,
            window,
            ..Head::default()
        };
        let output = vec![0xEE; 60 * links.len()];
        let links = links.to_vec();
        Desk {
            head,
            links,
            output,
        }
    }

    fn tick(&mut self) -> Result<HeadAnswer, Refusal> {
        self.head.tick(&mut self.links, &mut self.output)
    }

    fn advance(&mut self, ticks: u64) -> Result<Advanced<HeadAnswer>, Refusal> {
        self.head.advance(&mut self.links, &mut self.output, ticks)
    }

    fn ticks_until(&self) -> u32 {
        self.head.ticks_until(&self.links)
    }

    fn sent(&self, place: usize) -> Message {
        read(&self.output[60 * place..60 * place + 60]).unwrap()
    }
}

fn made(frames: usize, made: u32) -> Result<Advanced<HeadAnswer>, Refusal> {
    let answer = HeadAnswer {
        frames,
        notice: None,
    };
    Ok(Advanced { answer, made })
}

fn link_waiting(address: Address, wait: u32) -> Link {
    Link {
        state: LinkState::Waiting,
        address,
        wait,
        ..Link::IDLE
    }
}

fn link_registered(address: Address, watchdog: u32, periodic: u32) -> Link {
    Link {
        state: LinkState::Registered,
        address,
        watchdog,
        periodic,
        ..Link::IDLE
    }
}

fn gone(port: u16) -> Body {
    Body::Register {
        port,
        flag: RegisterFlag::Deregister,
        sync: 0,
        pending: 0,
    }
}

#[test]
fn a_registered_box_runs_its_timers_down() {
    let mut floor_box = registered(1000, 62_500_000, 100);
    assert_eq!(floor_box.ticks_until(), 99);
    assert_eq!(advance(&mut floor_box, 50), (50, vec![], vec![]));
    assert_eq!(floor_box, registered(1050, 62_499_950, 50));
}

#[test]
fn a_report_stops_it_with_the_stamp_of_its_own_tick() {
    let mut floor_box = registered(1000, 62_500_000, 100);
    let (made, frames, notices) = advance(&mut floor_box, 65_536);
    assert_eq!((made, notices), (100, vec![]));
    let report = Message {
        to: Address::EVERYONE,
        from: BOX,
        stamp: Count(1100),
        body: EMPTY,
    };
    assert_eq!(frames, [report]);
    assert_eq!(floor_box, registered(1100, 62_499_900, 3_125_000));
}

#[test]
fn the_laser_goes_on_silently_and_an_open_window_stops_it() {
    let one = grant(1100, 200);
    let sync = 10;
    let mut floor_box = FloorBox {
        sync,
        light: Light::Due {
            left: 10,
            grant: one,
            sync,
        },
        grants: GrantList::of(&[one]).unwrap(),
        ..registered(1090, 62_500_000, 3_125_000)
    };
    assert_eq!(floor_box.ticks_until(), 9);
    let opens = (52, vec![], vec![BoxNotice::Open]);
    assert_eq!(advance(&mut floor_box, 65_536), opens);
    assert_eq!(floor_box.count, Count(1142));
    assert_eq!(floor_box.light, Light::Open { left: 126 });
    assert!(floor_box.grants.is_empty());
    let closes = (126, vec![], vec![BoxNotice::Close]);
    assert_eq!(advance(&mut floor_box, 65_536), closes);
    assert_eq!(floor_box.count, Count(1268));
    assert_eq!(floor_box.light, Light::Fading { left: 32 });
    assert_eq!(floor_box.ticks_until(), 31);
}

#[test]
fn a_box_fades_and_lights_again_silently() {
    let next = grant(1300, 106);
    let fading = FloorBox {
        light: Light::Fading { left: 32 },
        grants: GrantList::of(&[next]).unwrap(),
        ..registered(1268, 62_500_000, 3_125_000)
    };
    let lit = |left| Light::Lit {
        left,
        length: 106,
        sync: 0,
    };
    for (ticks, light) in [
        (31, Light::Fading { left: 1 }),
        (32, lit(32)),
        (33, lit(31)),
    ] {
        let mut floor_box = fading;
        assert_eq!(
            advance(&mut floor_box, ticks),
            (ticks as u32, vec![], vec![])
        );
        assert_eq!(floor_box.light, light);
    }
    let mut floor_box = fading;
    let opens = (64, vec![], vec![BoxNotice::Open]);
    assert_eq!(advance(&mut floor_box, 65_536), opens);
    assert_eq!(floor_box.light, Light::Open { left: 42 });
}

#[test]
fn it_stops_before_a_tick_that_would_be_refused() {
    let mut floor_box = FloorBox {
        light: Light::Warming { left: 5 },
        ..registered(0, 62_500_000, 3_125_000)
    };
    assert_eq!(advance(&mut floor_box, 10), (4, vec![], vec![]));
    assert_eq!(floor_box.light, Light::Warming { left: 1 });
    assert_eq!(floor_box.ticks_until(), 0);
    let stopped = floor_box;
    for ticks in [1, 10, 65_536] {
        assert_eq!(floor_box.advance(ticks), Err(Refusal::UnaskedWindow));
        assert_eq!(floor_box, stopped);
    }
    // 9 comes ahead of 14.
    for ticks in [0, 65_537, (1 << 32) + 1, u64::MAX] {
        assert_eq!(floor_box.advance(ticks), Err(Refusal::BadGrant));
        assert_eq!(floor_box, stopped);
    }
}

#[test]
fn a_report_ahead_of_the_refused_tick_stops_it_first() {
    let mut floor_box = FloorBox {
        light: Light::Warming { left: 5 },
        ..registered(0, 62_500_000, 3)
    };
    let (made, frames, _) = advance(&mut floor_box, 10);
    assert_eq!((made, frames.len()), (3, 1));
    assert_eq!(advance(&mut floor_box, 10), (1, vec![], vec![]));
    assert_eq!(floor_box.advance(10), Err(Refusal::UnaskedWindow));
}

#[test]
fn a_box_in_wait_only_counts() {
    let mut floor_box = waiting(4_294_967_295);
    assert_eq!(floor_box.ticks_until(), 65_536);
    assert_eq!(advance(&mut floor_box, 65_536), (65_536, vec![], vec![]));
    assert_eq!(floor_box, waiting(65_535));
}

#[test]
fn numbers_outside_the_range_are_9_and_unsound_boxes_13() {
    let mut floor_box = waiting(0);
    for ticks in [0, 65_537, 1 << 32, (1 << 32) + 1, u64::MAX] {
        assert_eq!(floor_box.advance(ticks), Err(Refusal::BadGrant));
        assert_eq!(floor_box, waiting(0));
    }
    let mut unsound = FloorBox {
        wait: 1,
        ..waiting(0)
    };
    for ticks in [0, 1, 65_537] {
        assert_eq!(unsound.advance(ticks), Err(Refusal::Unsound));
    }
    assert_eq!(unsound.ticks_until(), 0);
    assert_eq!(unsound.wait, 1);
}

#[test]
fn discovery_is_silent_up_to_the_request() {
    let mut floor_box = FloorBox {
        state: BoxState::Registering,
        light: Light::Before {
            left: 10,
            random: 2,
            sync: 3,
        },
        ..waiting(100)
    };
    assert_eq!(floor_box.ticks_until(), 9);
    // 10 ticks to the start, 2 of random wait, 32 + 3 of laser.
    let (made, frames, notices) = advance(&mut floor_box, 65_536);
    assert_eq!((made, notices), (47, vec![BoxNotice::Window]));
    let flag = RequestFlag::Register;
    let body = Body::RegisterReq { flag, pending: 16 };
    assert_eq!((frames[0].stamp, frames[0].body), (Count(147), body));
    // The end of asking passes silently, 42 ticks on, and 32 later fading's.
    assert_eq!(floor_box.ticks_until(), 41);
    assert_eq!(advance(&mut floor_box, 50), (50, vec![], vec![]));
    assert_eq!(floor_box.light, Light::Fading { left: 24 });
    assert_eq!(floor_box.ticks_until(), 23);
    assert_eq!(advance(&mut floor_box, 24), (24, vec![], vec![]));
    assert_eq!(floor_box.light, Light::Rest);
    assert_eq!(floor_box.wait, 3_124_926);
}

#[test]
fn retry_and_farewell_stop_it() {
    let mut floor_box = requesting(7);
    assert_eq!(
        advance(&mut floor_box, 65_536),
        (7, vec![], vec![BoxNotice::Retry])
    );
    assert_eq!(floor_box.state, BoxState::Registering);
    let mut floor_box = registered(0, 7, 3_125_000);
    let (made, frames, notices) = advance(&mut floor_box, 65_536);
    assert_eq!((made, notices), (7, vec![BoxNotice::Deregistered]));
    assert_eq!((frames.len(), frames[0].stamp), (1, Count(7)));
    assert_eq!(floor_box, waiting(7));
}

#[test]
fn past_and_short_grants_leave_the_list_silently() {
    // At rest with a list, which only a state handed in has.
    let held = [grant(5, 120), grant(50, 105), grant(60, 106)];
    let mut floor_box = FloorBox {
        grants: GrantList::of(&held).unwrap(),
        ..registered(20, 62_500_000, 3_125_000)
    };
    assert_eq!(floor_box.ticks_until(), 0);
    let opens = (72, vec![], vec![BoxNotice::Open]);
    assert_eq!(advance(&mut floor_box, 65_536), opens);
    assert!(floor_box.grants.is_empty());
    assert_eq!(floor_box.count, Count(92));
}

#[test]
fn windows_of_the_head_open_and_close_on_the_way() {
    let window = Window::Before {
        left: 10,
        length: 5,
    };
    let links = [
        link_registered(BOX, 62_500_000, 40),
        link_waiting(OTHER, 30),
    ];
    let mut desk = Desk::of(window, &links);
    assert_eq!(desk.ticks_until(), 29);
    assert_eq!(desk.advance(65_536), made(1, 30));
    let sent = desk.sent(0);
    assert_eq!(
        (sent.to, sent.stamp, sent.body),
        (OTHER, Count(30), gone(2))
    );
    assert_eq!(desk.output[60..], [0xEE; 60]);
    let left = [link_registered(BOX, 62_499_970, 10), Link::IDLE];
    assert_eq!(desk.links, left);
    assert_eq!(
        (desk.head.count, desk.head.window),
        (Count(30), Window::Idle)
    );
}

#[test]
fn a_window_is_where_single_ticks_would_have_it() {
    let before = |left| Window::Before { left, length: 5 };
    let inside = |left| Window::Inside { left };
    let stations = [
        (1, before(9)),
        (9, before(1)),
        (10, inside(5)),
        (11, inside(4)),
        (14, inside(1)),
        (15, Window::Idle),
        (16, Window::Idle),
        (65_536, Window::Idle),
    ];
    for (ticks, window) in stations {
        let mut desk = Desk::of(before(10), &[Link::IDLE]);
        assert_eq!(desk.advance(ticks), made(0, ticks as u32));
        assert_eq!(desk.head.window, window, "{ticks}");
        assert_eq!(desk.output, [0xEE; 60]);
    }
}

#[test]
fn a_head_of_idle_links_counts() {
    let mut desk = Desk::of(Window::Idle, &[Link::IDLE; 3]);
    assert_eq!(desk.ticks_until(), 65_536);
    assert_eq!(desk.advance(65_536), made(0, 65_536));
    assert_eq!(desk.head.count, Count(65_536));
    let counted = desk.clone();
    for ticks in [65_537, 0, (1 << 32) + 1, u64::MAX] {
        assert_eq!(desk.advance(ticks), Err(Refusal::BadGrant));
        assert_eq!(desk, counted);
    }
}

#[test]
fn links_that_ring_together_send_in_order() {
    let links = [link_registered(BOX, 9, 7), link_waiting(OTHER, 7)];
    let mut desk = Desk::of(Window::Idle, &links);
    desk.output.resize(200, 0xEE);
    assert_eq!(desk.advance(9), made(2, 7));
    assert_eq!((desk.sent(0).to, desk.sent(1).to), (BOX, OTHER));
    assert_eq!(
        (desk.sent(0).stamp, desk.sent(1).stamp),
        (Count(7), Count(7))
    );
    assert_eq!(desk.output[120..], [0xEE; 80]);
    assert_eq!(desk.links, [link_registered(BOX, 2, 3_125_000), Link::IDLE]);
}

#[test]
fn the_head_tests_13_then_12_then_9() {
    let mut desk = Desk::of(Window::Idle, &[link_waiting(BOX, 3)]);
    desk.output.truncate(59);
    assert_eq!(desk.advance(0), Err(Refusal::ShortOutput));
    assert_eq!(desk.ticks_until(), 2);
    desk.links[0].watchdog = 1;
    assert_eq!(desk.advance(0), Err(Refusal::Unsound));
    assert_eq!(desk.ticks_until(), 0);
    assert_eq!(Head::default().ticks_until(&[]), 0);
}

/// Numbers for generated states: small ones often, so that ends meet.
struct Dice(u64);

impl Dice {
    fn below(&mut self, bound: u32) -> u32 {
        self.0 = self
            .0
            .wrapping_mul(6_364_136_223_846_793_005)
            .wrapping_add(1);
        ((self.0 >> 33) % u64::from(bound)) as u32
    }

    fn timer(&mut self, longest: u32) -> u32 {
        let bound = [5, 60, 300, longest][self.below(4) as usize];
        1 + self.below(bound.min(longest))
    }

    fn count(&mut self) -> Count {
        Count(0_u32.wrapping_sub(60).wrapping_add(self.below(120)))
    }

    fn ticks(&mut self) -> u64 {
        let bound = [3, 70, 400, 3000][self.below(4) as usize];
        u64::from(1 + self.below(bound))
    }

    fn grants(&mut self, now: Count) -> GrantList {
        let many = self.below(5);
        let grants: Vec<Grant> = (0..many)
            .map(|_| Grant {
                start: Count(now.0.wrapping_sub(20).wrapping_add(self.below(200))),
                length: 92 + self.below(60),
            })
            .collect();
        GrantList::of(&grants).unwrap()
    }

    fn light(&mut self, grants: &GrantList) -> Light {
        let sync = self.below(20);
        let due = grants.as_slice().iter().find(|g| g.length >= 106 + sync);
        match (self.below(10), due) {
            (0, _) => Light::Before {
                left: self.timer(62_500_000),
                random: self.below(50),
                sync,
            },
            (1, _) => Light::Random {
                left: self.timer(50),
                sync,
            },
            (2, _) => Light::Warming {
                left: self.timer(100),
            },
            (3, _) => Light::Asking {
                left: self.timer(42),
            },
            (4, _) => Light::Lit {
                left: self.timer(32),
                length: 130,
                sync,
            },
            (5, _) => Light::Open {
                left: self.timer(1000),
            },
            (6, _) => Light::Fading {
                left: self.timer(32),
            },
            (7 | 8, Some(&grant)) => Light::Due {
                left: self.timer(1000),
                grant,
                sync,
            },
            _ => Light::Rest,
        }
    }

    fn floor_box(&mut self) -> FloorBox {
        let count = self.count();
        let none = GrantList::new();
        let base = waiting(count.0);
        match self.below(6) {
            0 => base,
            1 => FloorBox {
                state: BoxState::Registering,
                light: self.light(&none),
                ..base
            },
            2 => FloorBox {
                light: self.light(&none),
                count,
                ..requesting(self.timer(3_125_000))
            },
            _ => {
                let grants = self.grants(count);
                FloorBox {
                    light: self.light(&grants),
                    grants,
                    sync: self.below(20),
                    ..registered(count.0, self.timer(62_500_000), self.timer(3_125_000))
                }
            }
        }
    }

    fn desk(&mut self) -> Desk {
        let window = match self.below(3) {
            0 => Window::Idle,
            1 => Window::Before {
                left: self.timer(62_500_000),
                length: self.timer(131_072),
            },
            _ => Window::Inside {
                left: self.timer(131_072),
            },
        };
        let links: Vec<Link> = (0..1 + self.below(6))
            .map(|place| {
                let address = Address(BOX.0 + u64::from(place));
                match self.below(3) {
                    0 => Link::IDLE,
                    1 => link_waiting(address, self.timer(3_125_000)),
                    _ => link_registered(address, self.timer(62_500_000), self.timer(3_125_000)),
                }
            })
            .collect();
        let mut desk = Desk::of(window, &links);
        desk.head.count = self.count();
        desk
    }
}

/// What the rule says of a box: single ticks.
fn box_by_ticks(floor_box: &mut FloorBox, ticks: u64) -> Result<Advanced<BoxAnswer>, Refusal> {
    let mut all = Advanced::default();
    for made in 1..=ticks as u32 {
        match floor_box.tick() {
            Err(refusal) if made == 1 => return Err(refusal),
            Err(_) => break,
            Ok(answer) => all = Advanced { answer, made },
        }
        if all.answer != BoxAnswer::default() {
            break;
        }
    }
    Ok(all)
}

/// No tick that `ticks_until` counts tells anything; only the first ones of
/// many are made.
fn assert_surely_silent(mut floor_box: FloorBox) {
    for _ in 0..floor_box.ticks_until().min(500) {
        assert_eq!(floor_box.tick(), Ok(BoxAnswer::default()));
    }
}

#[test]
fn the_box_advances_as_single_ticks_do() {
    let mut dice = Dice(1);
    let (mut stopped, mut refused) = (0, 0);
    for _ in 0..4000 {
        let mut floor_box = dice.floor_box();
        assert!(floor_box.is_sound(), "{floor_box:?}");
        for _ in 0..4 {
            let ticks = dice.ticks();
            let (before, mut by_ticks) = (floor_box, floor_box);
            let expected = box_by_ticks(&mut by_ticks, ticks);
            assert_eq!(floor_box.advance(ticks), expected, "{before:?} {ticks}");
            assert_eq!(floor_box, by_ticks, "{before:?} {ticks}");
            stopped += u32::from(expected.is_ok_and(|all| u64::from(all.made) < ticks));
            refused += u32::from(expected.is_err());
            assert_surely_silent(before);
        }
    }
    assert!(stopped > 1000 && refused > 50, "{stopped} {refused}");
}

#[test]
fn the_head_advances_as_single_ticks_do() {
    let mut dice = Dice(2);
    let mut stopped = 0;
    for _ in 0..3000 {
        let mut desk = dice.desk();
        for _ in 0..4 {
            let ticks = dice.ticks();
            let before = desk.clone();
            let mut by_ticks = desk.clone();
            let mut expected = Advanced::default();
            for made in 1..=ticks as u32 {
                let answer = by_ticks.tick().unwrap();
                expected = Advanced { answer, made };
                if answer != HeadAnswer::default() {
                    break;
                }
            }
            assert_eq!(desk.advance(ticks), Ok(expected), "{before:?} {ticks}");
            assert_eq!(desk, by_ticks, "{before:?} {ticks}");
            let silent = u64::from(before.ticks_until());
            if expected.answer == HeadAnswer::default() {
                assert!(silent >= ticks, "{before:?}");
            } else {
                stopped += 1;
                assert_eq!(silent + 1, u64::from(expected.made), "{before:?}");
            }
        }
    }
    assert!(stopped > 1000, "{stopped}");
}
