//! Cases that don't rest on chance: every state with every message, every
//! timer at its ends, every kind of address, every length of output, every
//! short list of grants.

mod advances;
mod fading;
mod leaving;
mod reports;

use super::messages::octets;
use super::states::{box_lines, head_line, link_line};
use super::values::{BOX, GROUP, HEAD, ONES};
use crustnewt_tool::replay::hex;
use plain::frame::{AckFlag, RegisterFlag, RequestFlag};
use plain::{
    Address, Body, BoxState, Count, FloorBox, Gate, Grant, GrantList, Granted, Head, Light, Link,
    LinkState, Message, QueueSets, Window,
};

const NOW: Count = Count(0xFFFF_FFF0);
const OTHER: Address = Address(0x0200_0000_0077);

/// A name and a script each.
pub(crate) fn cases() -> Vec<(&'static str, Vec<String>)> {
    vec![
        ("box states and messages", box_messages()),
        ("box timers", box_timers()),
        ("transmitter bounds", light_bounds()),
        ("head states and messages", head_messages()),
        ("head timers", head_timers()),
        ("sources and destinations", addresses()),
        ("lent outputs", outputs()),
        ("lent tables", tables()),
        ("queue sets heard", reports::heard()),
        ("queue sets asked for", reports::asked()),
        ("fading in every state", fading::in_every_state()),
        ("one grant behind another", fading::one_behind_another()),
        ("lengths that are needed", fading::around_needed()),
        ("fading worked out", fading::worked()),
        ("grants that leave a short list", leaving::of_few()),
        ("grants that leave a long list", leaving::of_many()),
        ("advances of the box", advances::of_boxes()),
        ("advances of the head", advances::of_heads()),
        ("advances worked out", advances::worked()),
    ]
}

fn grant() -> Grant {
    Grant {
        start: Count(20),
        length: 132,
    }
}

fn bodies() -> Vec<Body> {
    let granted = Granted {
        grant: grant(),
        force: true,
    };
    let (port, sync, pending) = (3, 5, 9);
    let mut bodies = vec![
        Body::Gate(Gate::empty()),
        Body::Gate(Gate::of(&[granted; 4]).unwrap_or_default()),
        Body::Discovery { granted, sync },
        Body::Report(QueueSets::NONE),
        Body::Report(QueueSets::of(1, &[5, 1, 2, 3, 4]).expect("they fit")),
    ];
    for flag in [RequestFlag::Register, RequestFlag::Deregister] {
        bodies.push(Body::RegisterReq { flag, pending });
    }
    for flag in [
        RegisterFlag::Reregister,
        RegisterFlag::Deregister,
        RegisterFlag::Ack,
        RegisterFlag::Nack,
    ] {
        bodies.push(Body::Register {
            port,
            flag,
            sync,
            pending,
        });
    }
    for flag in [AckFlag::Nack, AckFlag::Ack] {
        bodies.push(Body::RegisterAck { flag, port, sync });
    }
    bodies
}

fn digits(to: Address, from: Address, body: Body) -> String {
    stamped(NOW, to, from, body)
}

fn stamped(stamp: Count, to: Address, from: Address, body: Body) -> String {
    let message = Message {
        to,
        from,
        stamp,
        body,
    };
    hex(&octets(&message)).to_string()
}

fn box_in(state: BoxState, light: Light) -> FloorBox {
    let registered = state == BoxState::Registered;
    let held = usize::from(registered);
    let grants = GrantList::of(&[grant()][..held]).unwrap_or_default();
    FloorBox {
        address: BOX,
        count: Count(NOW.0 - 7),
        state,
        wait: if state == BoxState::Requesting { 50 } else { 0 },
        watchdog: if registered { 60 } else { 0 },
        report: if registered { 70 } else { 0 },
        port: 1,
        sync: 2,
        light,
        grants,
    }
}

/// A box with timers that don't end, at rest and without a grant.
fn quiet(count: u32, state: BoxState, sync: u32) -> FloorBox {
    let registered = state == BoxState::Registered;
    FloorBox {
        count: Count(count),
        watchdog: if registered { 62_500_000 } else { 0 },
        report: if registered { 3_125_000 } else { 0 },
        sync,
        grants: GrantList::new(),
        ..box_in(state, Light::Rest)
    }
}

/// Every phase of the transmitter, with so many ticks left.
fn lights(left: u32, sync: u32) -> [Light; 9] {
    [
        Light::Rest,
        Light::Before {
            left,
            random: 3,
            sync,
        },
        Light::Random { left, sync },
        Light::Warming { left },
        Light::Asking { left },
        Light::Due {
            left,
            grant: grant(),
            sync,
        },
        Light::Lit {
            left,
            length: 132,
            sync,
        },
        Light::Open { left },
        Light::Fading { left },
    ]
}

const BOX_STATES: [BoxState; 4] = [
    BoxState::Wait,
    BoxState::Registering,
    BoxState::Requesting,
    BoxState::Registered,
];

/// Every state with every phase of the transmitter, sound or not.
fn boxes(left: u32) -> Vec<FloorBox> {
    let with_lights = |state| lights(left, 4).map(|light| box_in(state, light));
    BOX_STATES.into_iter().flat_map(with_lights).collect()
}

fn box_messages() -> Vec<String> {
    let mut script = Vec::new();
    for floor_box in boxes(9) {
        for body in bodies() {
            for to in [BOX, Address::EVERYONE, OTHER] {
                script.extend(box_lines(&floor_box));
                script.push(format!("box hear 11 {}", digits(to, HEAD, body)));
                script.push("box tick 1".to_owned());
            }
        }
        for request in ["register", "deregister"] {
            script.extend(box_lines(&floor_box));
            script.push(format!("box {request}"));
        }
    }
    script
}

/// Each timer, and each pair of them, in its last ticks.
fn box_timers() -> Vec<String> {
    let mut script = Vec::new();
    for left in [1, 2] {
        for floor_box in boxes(left) {
            for timers in 0..8_u32 {
                let last = |bit: u32, timer: u32| match (timers >> bit & 1, timer) {
                    (1, 1..) => left,
                    _ => timer,
                };
                script.extend(box_lines(&FloorBox {
                    wait: last(0, floor_box.wait),
                    watchdog: last(1, floor_box.watchdog),
                    report: last(2, floor_box.report),
                    ..floor_box
                }));
                script.push("box tick 3".to_owned());
            }
        }
    }
    script
}

/// Every phase around its longest settings.
fn light_bounds() -> Vec<String> {
    let mut script = Vec::new();
    let longest = [
        0,
        1,
        26,
        32,
        36,
        42,
        65_425,
        65_429,
        65_461,
        65_471,
        62_500_000,
        0x7FFF_FFFF,
    ];
    for longest in longest {
        for left in [longest, longest + 1] {
            for sync in [0, 4, 26, 27, 65_429, 65_430, 65_535] {
                for light in lights(left, sync) {
                    script.extend(box_lines(&box_in(BoxState::Registered, light)));
                    script.push("box tick 1".to_owned());
                    script.push("box next 60 0".to_owned());
                }
            }
        }
    }
    script
}

fn link_in(state: LinkState) -> Link {
    let registered = state == LinkState::Registered;
    Link {
        state,
        address: if state == LinkState::Idle {
            Address::ZERO
        } else {
            BOX
        },
        wait: if state == LinkState::Waiting { 40 } else { 0 },
        watchdog: if registered { 50 } else { 0 },
        periodic: if registered { 60 } else { 0 },
    }
}

const LINK_STATES: [LinkState; 3] = [LinkState::Idle, LinkState::Waiting, LinkState::Registered];

fn windows(left: u32) -> [Window; 3] {
    let length = 30;
    [
        Window::Idle,
        Window::Before { left, length },
        Window::Inside { left },
    ]
}

fn head_with(window: Window) -> String {
    head_line(&Head {
        address: HEAD,
        count: Count(5),
        window,
    })
}

fn head_messages() -> Vec<String> {
    let mut script = vec![format!("head new 2 {HEAD}")];
    for state in LINK_STATES {
        for window in windows(9) {
            for call in head_calls() {
                script.push(head_with(window));
                script.push(link_line(1, &link_in(state)));
                script.push(link_line(2, &Link::IDLE));
                script.push(call);
            }
        }
    }
    script
}

/// Every message on every link number, and every request.
fn head_calls() -> Vec<String> {
    let mut calls = Vec::new();
    for body in bodies() {
        for to in [HEAD, Address::EVERYONE, OTHER] {
            for from in [BOX, OTHER] {
                let digits = digits(to, from, body);
                calls.extend((0..4).map(|link| format!("head hear {link} {digits}")));
            }
        }
    }
    for link in 0..4 {
        calls.push(format!("head reregister {link} 7"));
        calls.push(format!("head deregister {link}"));
        calls.push(format!("head gate {link} 1 1 10 100"));
        calls.push(format!("head gate {link} 2 1 10 100"));
        calls.push(format!("head gate {link} 0 5 1 1 1 1 1 1 1 1"));
    }
    for address in [BOX, OTHER, HEAD, Address::EVERYONE, Address::ZERO] {
        calls.push(format!("head admit {address} 1 7"));
        calls.push(format!("head reject {address} 1 7"));
    }
    for (start, length, window) in [(5, 106, 1), (6, 105, 1), (4, 106, 1), (9, 112, 131_073)] {
        calls.push(format!("head open {start} {length} 0 {window}"));
    }
    calls
}

fn head_timers() -> Vec<String> {
    let mut script = vec![format!("head new 2 {HEAD}")];
    for window in [1, 2].into_iter().flat_map(windows) {
        for state in LINK_STATES {
            for (wait, watchdog, periodic) in [(1, 1, 1), (2, 1, 2), (2, 2, 1), (1, 2, 2)] {
                let whole = link_in(state);
                script.push(head_with(window));
                script.push(link_line(
                    1,
                    &Link {
                        wait: wait.min(whole.wait),
                        watchdog: watchdog.min(whole.watchdog),
                        periodic: periodic.min(whole.periodic),
                        ..whole
                    },
                ));
                script.push(link_line(
                    2,
                    &Link {
                        address: OTHER,
                        ..link_in(LinkState::Waiting)
                    },
                ));
                script.push("head tick 3".to_owned());
            }
        }
    }
    script
}

/// Addresses that are a party's, and ones that aren't.
const ADDRESSES: [Address; 8] = [
    BOX,
    Address::ZERO,
    Address(BOX.0 | GROUP),
    Address::EVERYONE,
    ONES,
    Address(GROUP),
    Address(1),
    Address(0xFE00_0000_0000),
];

/// Every kind of message from every such source and to every such destination,
/// read and heard; and sources in frames that aren't read for another reason.
fn addresses() -> Vec<String> {
    let mut script = vec![format!("head new 1 {HEAD}")];
    for address in ADDRESSES {
        for body in bodies() {
            let to = digits(address, HEAD, body);
            script.push(format!("read {to}"));
            for frame in [to, digits(BOX, address, body)] {
                script.extend(heard_by_boxes(&frame));
            }
            let from = digits(HEAD, address, body);
            script.push(format!("read {from}"));
            script.extend(heard_by_heads(&from));
        }
        let report = digits(BOX, address, Body::Report(QueueSets::NONE));
        script.push(format!("read {}", &report[..118]));
        for other in ["88090003", "88080007"] {
            script.push(format!("read {}", report.replace("88080003", other)));
        }
    }
    script
}

/// By one that is registered, and by one that isn't sound.
fn heard_by_boxes(frame: &str) -> Vec<String> {
    let registered = box_in(BoxState::Registered, Light::Rest);
    let unsound = box_in(BoxState::Wait, Light::Open { left: 1 });
    let hear = |floor_box| {
        let mut lines = box_lines(&floor_box);
        lines.push(format!("box hear 11 {frame}"));
        lines
    };
    [registered, unsound].into_iter().flat_map(hear).collect()
}

/// Inside a window and outside, on link 0 and on one that is held.
fn heard_by_heads(frame: &str) -> Vec<String> {
    let mut script = Vec::new();
    for window in windows(9) {
        for link in [0, 1] {
            script.push(head_with(window));
            script.push(link_line(1, &link_in(LinkState::Registered)));
            script.push(format!("head hear {link} {frame}"));
        }
    }
    script
}

/// Tables of every size, allowed or not, with a frame due on every link.
fn tables() -> Vec<String> {
    let mut script = Vec::new();
    for links in (0..=66).chain([100]) {
        script.push(format!("head new {links} {HEAD}"));
        for number in 1..=links {
            let held = Link {
                address: Address(BOX.0 + number as u64),
                periodic: 1,
                ..link_in(LinkState::Registered)
            };
            script.push(link_line(number, &held));
        }
        script.push("head tick 2".to_owned());
        script.push(format!("head admit {OTHER} 1 2"));
        script.push(format!("head gate {links} 0 0"));
        script.push(format!("head deregister {links}"));
        script.push(format!("head reregister {} 3", links + 1));
    }
    script
}

/// Calls that hand out a frame, with outputs of every length.
fn outputs() -> Vec<String> {
    let mut script = Vec::new();
    for links in 1..=3 {
        for octets in 0..=60 * links + 1 {
            script.push(format!("head new {links} {HEAD}"));
            script.push(format!("head output {octets}"));
            let registered = Link {
                periodic: 1,
                ..link_in(LinkState::Registered)
            };
            script.push(link_line(1, &registered));
            script.push("head tick 1".to_owned());
            script.push("head gate 1 0 0".to_owned());
            script.push("head open 10 120 0 20".to_owned());
            script.push(format!("head reject {OTHER} 1 2"));
            script.push(format!("head admit {OTHER} 1 2"));
            script.push("head deregister 1".to_owned());
        }
    }
    script
}
