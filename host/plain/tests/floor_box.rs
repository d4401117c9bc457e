//! The box's steps, worked by hand from the rules (R89 to R144).

mod boxes;

use boxes::{
    discovery, gate, grant, notices, register, registered, registering, to_box, BOX, HEAD,
};
use plain::frame::{read, write, AckFlag, RegisterFlag, RequestFlag};
use plain::{
    Address, Body, BoxAnswer, BoxNotice, BoxState, Count, FloorBox, GrantList, Granted, Light,
    Message, Next, QueueSets, Refusal,
};

/// A group's: the lowest bit of its first octet is set.
const GROUP: Address = Address(0x0313_4657_8A9B);
/// A REPORT of no sets.
const EMPTY: Body = Body::Report(QueueSets::NONE);

fn requesting() -> FloorBox {
    FloorBox {
        state: BoxState::Requesting,
        wait: 3_125_000,
        ..registering()
    }
}

fn bodies(answer: &BoxAnswer) -> Vec<Body> {
    let message = |frame| read(frame).unwrap();
    answer.frames.iter().map(|f| message(f).body).collect()
}

/// Ticks until a notice or frame, and that tick's answer.
fn until_heard(floor_box: &mut FloorBox, most: u32) -> (u32, BoxAnswer) {
    for ticks in 1..=most {
        let answer = floor_box.tick().unwrap();
        if answer != BoxAnswer::default() {
            return (ticks, answer);
        }
    }
    panic!("nothing within {most} ticks");
}

#[test]
fn fresh_box_waits_dark() {
    let (floor_box, _) = FloorBox::fresh(BOX);
    assert_eq!(floor_box.state, BoxState::Wait);
    assert_eq!(floor_box.light, Light::Rest);
    assert_eq!(floor_box.count, Count(0));
}

#[test]
fn fresh_box_of_a_group_is_refused_and_holds_zero() {
    let (floor_box, answer) = FloorBox::fresh(Address::EVERYONE);
    assert_eq!(answer, Err(Refusal::OutOfRange));
    assert_eq!(floor_box, FloorBox::default());
    assert_eq!(floor_box.clone().tick(), Err(Refusal::Unsound));
}

#[test]
fn client_requests_have_their_states() {
    let mut floor_box = registering();
    assert_eq!(floor_box.register(), Err(Refusal::NotNow));
    assert_eq!(floor_box.deregister(), Err(Refusal::NotNow));
    let mut floor_box = registered(9, 0);
    let answer = floor_box.deregister().unwrap();
    let flag = RequestFlag::Deregister;
    assert_eq!(bodies(&answer), [Body::RegisterReq { flag, pending: 0 }]);
    assert_eq!(notices(&answer), [BoxNotice::Deregistered]);
    assert_eq!(floor_box.state, BoxState::Wait);
    assert_eq!((floor_box.watchdog, floor_box.report), (0, 0));
    assert_eq!(floor_box.port, 1);
}

#[test]
fn sums_8_and_9_random_wait() {
    for (random, wait) in [(250, 43), (101, 32), (69, 0), (68, 68)] {
        let mut floor_box = registering();
        floor_box.hear(&discovery(5, 5, 174, 0), random).unwrap();
        let expected = match wait {
            0 => Light::Warming { left: 32 },
            left => Light::Random { left, sync: 0 },
        };
        assert_eq!(floor_box.light, expected);
    }
}

#[test]
fn discovery_gate_to_the_box_alone_has_no_random_wait() {
    let mut floor_box = registering();
    let mut message = discovery(0, 10, 174, 0);
    message.to = BOX;
    floor_box.hear(&message, 50).unwrap();
    let random = 0;
    assert_eq!(
        floor_box.light,
        Light::Before {
            left: 10,
            random,
            sync: 0
        }
    );
}

#[test]
fn discovery_passes_over_short_and_far_grants() {
    let passed = [
        discovery(0, 10, 105, 0),
        discovery(0, 62_500_001, 106, 0),
        discovery(10, 9, 106, 0),
        discovery(0, 10, 65_535, 65_430),
    ];
    for message in passed {
        let mut floor_box = registering();
        floor_box.hear(&message, 0).unwrap();
        assert_eq!(floor_box.light, Light::Rest);
    }
}

#[test]
fn discovery_from_start_to_dark() {
    let mut floor_box = registering();
    floor_box.hear(&discovery(100, 110, 112, 3), 2).unwrap();
    // 10 ticks to the start, 2 of random wait (2 mod 4), 32 + 3 of laser.
    let (ticks, answer) = until_heard(&mut floor_box, 100);
    assert_eq!(ticks, 47);
    assert_eq!(notices(&answer), [BoxNotice::Window]);
    let flag = RequestFlag::Register;
    assert_eq!(bodies(&answer), [Body::RegisterReq { flag, pending: 16 }]);
    let sent = read(answer.frames.iter().next().unwrap()).unwrap();
    assert_eq!(
        (sent.to, sent.from, sent.stamp),
        (Address::EVERYONE, BOX, Count(147))
    );
    assert_eq!(floor_box.state, BoxState::Requesting);
    assert_eq!(floor_box.wait, 3_125_000);
    assert_eq!(floor_box.next(60, 0), Next::Control);
    for _ in 0..41 {
        assert_eq!(floor_box.tick(), Ok(BoxAnswer::default()));
        assert_eq!(floor_box.next(60, 0), Next::Nothing);
    }
    assert_eq!(floor_box.light, Light::Asking { left: 1 });
    assert_eq!(floor_box.tick(), Ok(BoxAnswer::default()));
    assert_eq!(floor_box.light, Light::Fading { left: 32 });
    for _ in 0..32 {
        assert_eq!(floor_box.next(60, 0), Next::Nothing);
        assert_eq!(floor_box.tick(), Ok(BoxAnswer::default()));
    }
    assert_eq!(floor_box.light, Light::Rest);
}

#[test]
fn ack_registers_and_reports() {
    let mut floor_box = requesting();
    let heard = register(1000, RegisterFlag::Ack, 31, 10);
    let answer = floor_box.hear(&heard, 0).unwrap();
    let ack = Body::RegisterAck {
        flag: AckFlag::Ack,
        port: 31,
        sync: 10,
    };
    assert_eq!(answer.drift, 1000);
    assert_eq!(bodies(&answer), [ack, EMPTY]);
    assert_eq!(notices(&answer), [BoxNotice::Registered]);
    assert_eq!(
        floor_box,
        FloorBox {
            port: 31,
            ..registered(1000, 10)
        }
    );
}

#[test]
fn nack_echoes_and_keeps_nothing() {
    let mut floor_box = requesting();
    let heard = register(0, RegisterFlag::Nack, 7, 8);
    let answer = floor_box.hear(&heard, 0).unwrap();
    let nack = Body::RegisterAck {
        flag: AckFlag::Nack,
        port: 7,
        sync: 8,
    };
    assert_eq!(bodies(&answer), [nack]);
    assert_eq!(notices(&answer), [BoxNotice::Refused]);
    assert_eq!(floor_box, FloorBox::fresh(BOX).0);
}

#[test]
fn wait_for_register_runs_out() {
    let mut floor_box = FloorBox {
        wait: 1,
        ..requesting()
    };
    let answer = floor_box.tick().unwrap();
    assert_eq!(notices(&answer), [BoxNotice::Retry]);
    assert_eq!(floor_box.state, BoxState::Registering);
}

#[test]
fn reregister_keeps_the_list_and_restarts_the_watchdog() {
    let mut floor_box = registered(0, 0);
    floor_box.watchdog = 5;
    floor_box.report = 6;
    floor_box.grants = GrantList::of(&[grant(500, 126)]).unwrap();
    floor_box
        .hear(&register(0, RegisterFlag::Reregister, 2, 20), 0)
        .unwrap();
    assert_eq!((floor_box.port, floor_box.sync), (2, 20));
    assert_eq!(
        (floor_box.watchdog, floor_box.report),
        (62_500_000, 3_125_000)
    );
    assert_eq!(floor_box.grants.as_slice(), [grant(500, 126)]);
}

#[test]
fn the_heads_deregister_is_told_without_a_frame() {
    let mut floor_box = registered(0, 0);
    let heard = register(3, RegisterFlag::Deregister, 1, 0);
    let answer = floor_box.hear(&heard, 0).unwrap();
    assert!(answer.frames.is_empty());
    assert_eq!(notices(&answer), [BoxNotice::Deregistered]);
    assert_eq!(floor_box.state, BoxState::Wait);
}

#[test]
fn messages_without_a_step_still_set_the_count() {
    let (mut floor_box, _) = FloorBox::fresh(BOX);
    floor_box.count = Count(10);
    let heard = register(4, RegisterFlag::Ack, 1, 1);
    let answer = floor_box.hear(&heard, 0).unwrap();
    assert_eq!(answer.drift, -6);
    assert!(answer.notices.is_empty() && answer.frames.is_empty());
    assert_eq!(floor_box.count, Count(4));
    assert_eq!(floor_box.port, 0);
}

#[test]
fn order_of_tests_at_the_box() {
    let mut floor_box = registered(0, 0);
    let other = Address(2);
    let report = Message {
        to: other,
        ..to_box(0, EMPTY)
    };
    assert_eq!(floor_box.hear(&report, 0), Err(Refusal::WrongWay));
    let long = gate(0, &[grant(0, 65_536)]);
    let grouped = Message {
        from: GROUP,
        ..gate(0, &[])
    };
    for ranged in [long, grouped] {
        let elsewhere = Message {
            to: other,
            ..ranged
        };
        assert_eq!(floor_box.hear(&elsewhere, 0), Err(Refusal::NotMine));
        assert_eq!(floor_box.hear(&ranged, 0), Err(Refusal::OutOfRange));
    }
    let everyone = Message {
        to: Address::EVERYONE,
        ..gate(0, &[])
    };
    assert_eq!(floor_box.hear(&everyone, 0), Err(Refusal::NotMine));
    floor_box.wait = 1;
    assert_eq!(floor_box.hear(&report, 0), Err(Refusal::Unsound));
}

#[test]
fn a_message_from_a_group_or_nobody_changes_nothing() {
    let mut floor_box = registered(7, 0);
    floor_box.watchdog = 5;
    floor_box.grants = GrantList::of(&[grant(500, 120)]).unwrap();
    let before = floor_box;
    for from in [GROUP, Address::ZERO, Address(HEAD.0 | 1 << 48)] {
        for heard in [
            gate(9, &[grant(600, 120)]),
            discovery(9, 600, 120, 0),
            register(9, RegisterFlag::Deregister, 1, 0),
        ] {
            let answer = floor_box.hear(&Message { from, ..heard }, 0);
            assert_eq!(answer, Err(Refusal::OutOfRange), "{from}");
            assert_eq!(floor_box, before);
        }
    }
    floor_box.hear(&gate(9, &[]), 0).unwrap();
    assert_eq!(floor_box.watchdog, 62_500_000);
}

/// Heard as octets a group's GATE is refused by the reader, ahead of the box.
#[test]
fn an_unsound_box_is_told_before_a_group() {
    let mut floor_box = registered(0, 0);
    floor_box.wait = 1;
    let heard = Message {
        from: GROUP,
        ..gate(0, &[])
    };
    assert_eq!(floor_box.hear(&heard, 0), Err(Refusal::Unsound));
    let mut frame = write(&gate(0, &[])).unwrap();
    frame[6..12].copy_from_slice(&[3, 0x13, 0x46, 0x57, 0x8A, 0x9B]);
    assert_eq!(read(&frame), Err(Refusal::OutOfRange));
}

#[test]
fn sums_11_and_12_a_grant_and_the_next_in_the_same_call() {
    let mut floor_box = registered(1000, 10);
    let heard = gate(1000, &[grant(1100, 200), grant(1300, 120)]);
    let answer = floor_box.hear(&heard, 0).unwrap();
    assert_eq!(notices(&answer).len(), 2);
    let dark = |floor_box: &FloorBox| matches!(floor_box.light, Light::Due { .. });
    while dark(&floor_box) {
        floor_box.tick().unwrap();
    }
    assert_eq!(floor_box.count, Count(1100));
    assert_eq!(floor_box.grants.as_slice(), [grant(1300, 120)]);
    let (_, open) = until_heard(&mut floor_box, 1000);
    assert_eq!(notices(&open), [BoxNotice::Open]);
    assert_eq!(floor_box.count, Count(1142));
    let (_, close) = until_heard(&mut floor_box, 1000);
    assert_eq!(notices(&close), [BoxNotice::Close]);
    assert_eq!(floor_box.count, Count(1268));
    for _ in 1268..1300 {
        assert!(matches!(floor_box.light, Light::Fading { .. }));
        assert_eq!(floor_box.tick(), Ok(BoxAnswer::default()));
    }
    let lit = Light::Lit {
        left: 42,
        length: 120,
        sync: 10,
    };
    assert_eq!(floor_box.light, lit);
}

#[test]
fn sums_5_and_6_lengths_that_serve() {
    for (sync, length, serves) in [(0, 106, true), (0, 105, false), (65_535, 65_535, false)] {
        let mut floor_box = registered(0, sync);
        floor_box.hear(&gate(0, &[grant(5, length)]), 0).unwrap();
        assert_eq!(floor_box.light != Light::Rest, serves);
        assert_eq!(floor_box.grants.is_empty(), !serves);
    }
}

#[test]
fn a_waiting_choice_is_not_revised() {
    let mut floor_box = registered(0, 0);
    floor_box.hear(&gate(0, &[grant(500, 120)]), 0).unwrap();
    floor_box.hear(&gate(0, &[grant(300, 110)]), 0).unwrap();
    let due = Light::Due {
        left: 500,
        grant: grant(500, 120),
        sync: 0,
    };
    assert_eq!(floor_box.light, due);
    // Set to a later count, the box still waits its 500 ticks.
    floor_box.hear(&gate(400, &[]), 0).unwrap();
    assert_eq!(floor_box.light, due);
}

#[test]
fn only_what_is_in_reach_and_has_room_is_taken() {
    let mut floor_box = registered(0, 0);
    floor_box.grants = GrantList::of(&[grant(900, 120); 14]).unwrap();
    let grants = [
        grant(62_500_001, 1),
        grant(62_500_000, 2),
        grant(0, 3),
        grant(0, 4),
    ];
    let answer = floor_box.hear(&gate(0, &grants), 0).unwrap();
    let taken = |grant| {
        BoxNotice::Grant(Granted {
            grant,
            force: false,
        })
    };
    assert_eq!(notices(&answer), [taken(grants[1]), taken(grants[2])]);
}

#[test]
fn discovery_gates_do_not_restart_the_watchdog() {
    let mut floor_box = registered(0, 0);
    floor_box.watchdog = 2;
    floor_box.hear(&discovery(0, 10, 174, 0), 0).unwrap();
    assert_eq!(floor_box.watchdog, 2);
    floor_box.tick().unwrap();
    let answer = floor_box.tick().unwrap();
    assert_eq!(notices(&answer), [BoxNotice::Deregistered]);
    let flag = RequestFlag::Deregister;
    assert_eq!(bodies(&answer), [Body::RegisterReq { flag, pending: 0 }]);
    assert_eq!(floor_box.state, BoxState::Wait);
}

#[test]
fn watchdog_comes_before_report_and_transmitter() {
    let mut floor_box = FloorBox {
        watchdog: 1,
        report: 1,
        light: Light::Open { left: 1 },
        ..registered(0, 0)
    };
    let answer = floor_box.tick().unwrap();
    assert_eq!(notices(&answer), [BoxNotice::Deregistered]);
    assert_eq!(bodies(&answer).len(), 1);
}

#[test]
fn report_is_periodic() {
    let mut floor_box = FloorBox {
        report: 1,
        ..registered(0xFFFF_FFFF, 0)
    };
    let answer = floor_box.tick().unwrap();
    assert_eq!(bodies(&answer), [EMPTY]);
    assert_eq!(floor_box.report, 3_125_000);
    assert_eq!(floor_box.count, Count(0));
}

#[test]
fn a_window_on_a_box_not_registering_is_fourteen() {
    let opening = Light::Warming { left: 1 };
    let asked = FloorBox {
        light: opening,
        ..requesting()
    };
    let mut floor_box = asked;
    assert_eq!(floor_box.tick(), Err(Refusal::UnaskedWindow));
    assert_eq!(floor_box, asked);
    // The wait that runs out in this tick leads back to REGISTERING.
    let mut floor_box = FloorBox { wait: 1, ..asked };
    let answer = floor_box.tick().unwrap();
    assert_eq!(notices(&answer), [BoxNotice::Retry, BoxNotice::Window]);
    // The watchdog that runs out in this tick leaves the box dark.
    let mut floor_box = FloorBox {
        light: opening,
        watchdog: 1,
        ..registered(0, 0)
    };
    let answer = floor_box.tick().unwrap();
    assert_eq!(notices(&answer), [BoxNotice::Deregistered]);
}

#[test]
fn next_to_send() {
    let control = [1; 60];
    let data = [2; 100];
    let open = |left| FloorBox {
        light: Light::Open { left },
        ..registered(0, 0)
    };
    assert_eq!(open(42).next_to_send(&control, &data), control);
    assert_eq!(open(41).next_to_send(&control, &data), []);
    assert_eq!(open(62).next_to_send(&[], &data), data);
    assert_eq!(open(61).next_to_send(&[], &data), []);
    assert_eq!(registered(0, 0).next_to_send(&control, &data), []);
    let asking = FloorBox {
        light: Light::Asking { left: 42 },
        ..requesting()
    };
    assert_eq!(asking.next(0, 20), Next::Nothing);
    assert_eq!(asking.next(60, 0), Next::Control);
}

fn assert_unsound(mut floor_box: FloorBox) {
    let before = floor_box;
    assert_eq!(floor_box.tick(), Err(Refusal::Unsound), "{before:?}");
    assert_eq!(floor_box.register(), Err(Refusal::Unsound));
    assert_eq!(floor_box.deregister(), Err(Refusal::Unsound));
    assert_eq!(floor_box.report(0, &[]), Err(Refusal::Unsound));
    assert_eq!(floor_box, before);
}

#[test]
fn timers_outside_their_bounds_are_unsound() {
    let sound = registered(0, 0);
    assert!(sound.is_sound());
    for (wait, watchdog, report) in [
        (0, 0, 1),
        (0, 1, 0),
        (0, 62_500_001, 1),
        (0, 1, 3_125_001),
        (1, 1, 1),
    ] {
        assert_unsound(FloorBox {
            wait,
            watchdog,
            report,
            ..sound
        });
    }
    for wait in [0, 3_125_001] {
        assert_unsound(FloorBox {
            wait,
            ..requesting()
        });
    }
}

#[test]
fn addresses_syncs_and_grants_outside_their_bounds_are_unsound() {
    let sound = registered(0, 0);
    let list = |length| GrantList::of(&[grant(0, length)]).unwrap();
    for address in [Address::EVERYONE, Address::ZERO, Address(1 << 48 | 2)] {
        assert_unsound(FloorBox { address, ..sound });
    }
    assert_unsound(FloorBox {
        sync: 65_536,
        ..sound
    });
    assert_unsound(FloorBox {
        grants: list(65_536),
        ..sound
    });
    assert_unsound(FloorBox {
        grants: list(80),
        ..requesting()
    });
    assert_unsound(FloorBox {
        light: Light::Open { left: 1 },
        ..FloorBox::fresh(BOX).0
    });
}
