//! Light that lingers (R133, R134, R244 to R246), worked by hand from the rules.

mod boxes;

use boxes::{discovery, gate, grant, notices, register, registered, registering};
use plain::frame::RegisterFlag;
use plain::{
    BoxAnswer, BoxNotice, BoxState, Count, FloorBox, Grant, GrantList, Light, Message, Next,
};

const ORDERED_OFF: Light = Light::Fading { left: 32 };

/// A discovery GATE with stamp 1000 and sync 0, to everyone.
fn call(start: u32, length: u32) -> Message {
    discovery(1000, start, length, 0)
}

fn requesting(wait: u32) -> FloorBox {
    FloorBox {
        state: BoxState::Requesting,
        wait,
        ..registering()
    }
}

/// Registered with sync 10, with these grants just heard.
fn granting(grants: &[Grant]) -> FloorBox {
    let mut floor_box = registered(1000, 10);
    floor_box.hear(&gate(1000, grants), 0).unwrap();
    floor_box
}

fn lit(length: u32) -> Light {
    Light::Lit {
        left: 42,
        length,
        sync: 10,
    }
}

/// The ticks that tell something or bring another phase: count, notices and
/// transmitter after each.
fn stations(floor_box: &mut FloorBox, ticks: u32) -> Vec<(u32, Vec<BoxNotice>, Light)> {
    let mut stations = vec![];
    for _ in 0..ticks {
        let before = floor_box.light.name();
        let told = notices(&floor_box.tick().unwrap());
        if !told.is_empty() || floor_box.light.name() != before {
            stations.push((floor_box.count.0, told, floor_box.light));
        }
    }
    stations
}

/// Sums 11 and 12, to the second grant's end.
#[test]
fn two_grants_end_to_end() {
    let mut floor_box = granting(&[grant(1100, 200), grant(1300, 200)]);
    let expected = [
        (1100, vec![], lit(200)),
        (1142, vec![BoxNotice::Open], Light::Open { left: 126 }),
        (1268, vec![BoxNotice::Close], ORDERED_OFF),
        (1300, vec![], lit(200)),
        (1342, vec![BoxNotice::Open], Light::Open { left: 126 }),
        (1468, vec![BoxNotice::Close], ORDERED_OFF),
        (1500, vec![], Light::Rest),
    ];
    assert_eq!(stations(&mut floor_box, 600), expected);
}

/// From 1268 to 1299 the light lingers: a start there is past at 1300.
#[test]
fn a_start_inside_fading_is_lost() {
    for start in [1268, 1270, 1299] {
        let mut floor_box = granting(&[grant(1100, 200), grant(start, 200)]);
        let seen = stations(&mut floor_box, 299);
        assert_eq!(
            seen.last(),
            Some(&(1268, vec![BoxNotice::Close], ORDERED_OFF))
        );
        assert_eq!(floor_box.grants.as_slice(), [grant(start, 200)]);
        assert_eq!(stations(&mut floor_box, 1), [(1300, vec![], Light::Rest)]);
        assert!(floor_box.grants.is_empty());
    }
}

#[test]
fn the_shortest_grant_opens_for_one_control_frame() {
    let mut floor_box = granting(&[grant(1100, 115)]);
    assert!(floor_box.grants.is_empty());
    assert_eq!(stations(&mut floor_box, 300), []);
    let mut floor_box = granting(&[grant(1100, 116)]);
    let expected = [
        (1100, vec![], lit(116)),
        (1142, vec![BoxNotice::Open], Light::Open { left: 42 }),
        (1184, vec![BoxNotice::Close], ORDERED_OFF),
        (1216, vec![], Light::Rest),
    ];
    assert_eq!(stations(&mut floor_box, 300), expected);
}

/// Sums 8 and 9, to the transmitter's rest.
#[test]
fn a_discovery_window_fades_without_a_notice() {
    for (random, wait, warming) in [(250, 43, 2043), (101, 32, 2032)] {
        let mut floor_box = registering();
        floor_box.hear(&call(2000, 174), random).unwrap();
        let waiting = Light::Random {
            left: wait,
            sync: 0,
        };
        let expected = [
            (2000, vec![], waiting),
            (warming, vec![], Light::Warming { left: 32 }),
            (
                warming + 32,
                vec![BoxNotice::Window],
                Light::Asking { left: 42 },
            ),
            (warming + 74, vec![], ORDERED_OFF),
            (warming + 106, vec![], Light::Rest),
        ];
        assert_eq!(stations(&mut floor_box, 1200), expected);
    }
}

#[test]
fn the_shortest_discovery_grant_leaves_no_random_wait() {
    for random in [0, 1, 68, 101, u32::MAX] {
        let mut floor_box = registering();
        floor_box.hear(&call(1000, 106), random).unwrap();
        assert_eq!(floor_box.light, Light::Warming { left: 32 });
        let mut floor_box = registering();
        floor_box.hear(&call(1000, 105), random).unwrap();
        assert_eq!(floor_box.light, Light::Rest);
    }
}

/// 280 ticks on the transmitter has 20 left to fade.
#[test]
fn a_client_that_deregisters_a_fading_box_rests_it() {
    let mut floor_box = granting(&[grant(1100, 200), grant(1300, 200)]);
    stations(&mut floor_box, 280);
    assert_eq!(floor_box.light, Light::Fading { left: 20 });
    floor_box.deregister().unwrap();
    let waiting = FloorBox {
        count: Count(1280),
        state: BoxState::Wait,
        port: 1,
        sync: 10,
        ..registering()
    };
    assert_eq!(floor_box, waiting);
    floor_box.register().unwrap();
    floor_box.hear(&call(1000, 106), 0).unwrap();
    assert_eq!(floor_box.light, Light::Warming { left: 32 });
}

#[test]
fn every_way_into_wait_rests_a_fading_box() {
    let fading = |floor_box| FloorBox {
        light: ORDERED_OFF,
        ..floor_box
    };
    let mut refused = fading(requesting(9));
    refused
        .hear(&register(1000, RegisterFlag::Nack, 1, 0), 0)
        .unwrap();
    let mut dropped = fading(registered(1000, 0));
    let farewell = register(1000, RegisterFlag::Deregister, 1, 0);
    dropped.hear(&farewell, 0).unwrap();
    let mut unheard = fading(registered(1000, 0));
    unheard.watchdog = 1;
    unheard.tick().unwrap();
    for floor_box in [refused, dropped, unheard] {
        assert_eq!(floor_box.state, BoxState::Wait);
        assert_eq!(floor_box.light, Light::Rest);
    }
}

#[test]
fn a_retry_lets_fading_go_on_and_a_discovery_gate_waits_for_its_end() {
    let mut floor_box = FloorBox {
        light: Light::Fading { left: 3 },
        ..requesting(1)
    };
    let told = floor_box.tick().unwrap();
    assert_eq!(notices(&told), [BoxNotice::Retry]);
    assert_eq!(floor_box.state, BoxState::Registering);
    for left in [2, 1] {
        floor_box.hear(&call(1000, 106), 0).unwrap();
        assert_eq!(floor_box.light, Light::Fading { left });
        assert_eq!(floor_box.tick(), Ok(BoxAnswer::default()));
    }
    floor_box.hear(&call(1000, 106), 0).unwrap();
    assert_eq!(floor_box.light, Light::Warming { left: 32 });
}

#[test]
fn a_retry_in_the_last_tick_of_fading_leaves_the_box_at_rest() {
    let mut floor_box = FloorBox {
        light: Light::Fading { left: 1 },
        ..requesting(1)
    };
    let told = floor_box.tick().unwrap();
    assert_eq!(notices(&told), [BoxNotice::Retry]);
    assert_eq!(floor_box.light, Light::Rest);
}

#[test]
fn an_ack_lets_fading_go_on() {
    let mut floor_box = FloorBox {
        light: Light::Fading { left: 2 },
        ..requesting(9)
    };
    floor_box
        .hear(&register(1000, RegisterFlag::Ack, 1, 0), 0)
        .unwrap();
    let now = grant(1000, 106);
    floor_box.hear(&gate(1000, &[now]), 0).unwrap();
    assert_eq!(floor_box.light, Light::Fading { left: 2 });
    assert_eq!(floor_box.grants.as_slice(), [now]);
}

#[test]
fn nothing_goes_while_it_fades() {
    let with = |light| FloorBox {
        light,
        ..registered(1000, 0)
    };
    assert_eq!(with(Light::Open { left: 42 }).next(60, 0), Next::Control);
    assert_eq!(with(Light::Open { left: 41 }).next(60, 0), Next::Nothing);
    for left in [1, 32, u32::MAX] {
        let fading = with(Light::Fading { left });
        assert_eq!(fading.next(60, 0), Next::Nothing);
        assert_eq!(fading.next(0, 1), Next::Nothing);
    }
}

#[test]
fn fading_is_sound_in_every_state_but_wait() {
    let waiting = FloorBox {
        state: BoxState::Wait,
        ..registering()
    };
    for (floor_box, rests) in [
        (waiting, true),
        (registering(), false),
        (requesting(1), false),
        (registered(1000, 0), false),
    ] {
        for (left, in_range) in [(0, false), (1, true), (32, true), (33, false)] {
            let light = Light::Fading { left };
            let sound = FloorBox { light, ..floor_box }.is_sound();
            assert_eq!(sound, in_range && !rests, "{:?} {left}", floor_box.state);
        }
    }
}

/// Grants held before the laser-off time was counted, of 74 to 105 quanta.
#[test]
fn what_is_held_must_serve_with_the_laser_off_time() {
    let grant = |length| grant(2000, length);
    for (length, sound) in [(105, false), (106, true)] {
        let due = FloorBox {
            light: Light::Due {
                left: 1000,
                grant: grant(length),
                sync: 0,
            },
            grants: GrantList::of(&[grant(length)]).unwrap(),
            ..registered(1000, 0)
        };
        assert_eq!(due.is_sound(), sound);
    }
}
