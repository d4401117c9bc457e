//! States to hand in, sound and unsound, and the lines that set them.

use super::values::{address, count, edgy, length_for, near, quanta, running, sync, BOX, HEAD};
use crustnewt_tool::dice::Dice;
use plain::numbers::{needed_length, LONGEST, LONGEST_WINDOW, PERIOD, WAIT, WATCHDOG};
use plain::{
    Address, BoxState, Count, FloorBox, Grant, GrantList, Head, Light, Link, LinkState, Window,
};

/// Of a thousand states, so many have something unsound about them.
const SPOILED: u64 = 150;

pub(crate) fn any_box(dice: &mut Dice) -> FloorBox {
    let state = dice.pick(&[
        BoxState::Wait,
        BoxState::Registering,
        BoxState::Requesting,
        BoxState::Registered,
        BoxState::Registered,
    ]);
    let registered = state == BoxState::Registered;
    let mut floor_box = FloorBox {
        address: BOX,
        count: count(dice),
        state,
        port: dice.half() as u16,
        sync: sync(dice),
        ..FloorBox::default()
    };
    if state == BoxState::Requesting {
        floor_box.wait = running(dice, WAIT);
    }
    if registered {
        floor_box.watchdog = running(dice, WATCHDOG);
        floor_box.report = running(dice, PERIOD);
        floor_box.grants = list(dice, &floor_box);
    }
    if state != BoxState::Wait {
        floor_box.light = light(dice, &floor_box);
    }
    if dice.chance(SPOILED) {
        spoil_box(dice, &mut floor_box);
    }
    floor_box
}

fn list(dice: &mut Dice, floor_box: &FloorBox) -> GrantList {
    let grants = dice.pick(&[0, 0, 1, 2, 3, 15, 16]);
    let mut list = GrantList::new();
    for _ in 0..grants {
        let last = list.as_slice().last().copied();
        let twin = last.filter(|_| dice.chance(150));
        let before = last.filter(|_| dice.chance(300));
        let grant = Grant {
            start: match before {
                Some(before) => around_end(dice, before),
                None => near(dice, floor_box.count),
            },
            length: length_for(dice, floor_box.sync),
        };
        list.push(twin.unwrap_or(grant));
    }
    list
}

/// A start from 33 ticks before a grant's end, where its light may linger, to
/// one behind it.
pub(crate) fn around_end(dice: &mut Dice, grant: Grant) -> Count {
    let end = grant.start.0.wrapping_add(grant.length);
    Count(end.wrapping_add(1).wrapping_sub(dice.below(35) as u32))
}

fn light(dice: &mut Dice, floor_box: &FloorBox) -> Light {
    let sync = sync(dice).min(60_000);
    let spare = LONGEST - needed_length(sync);
    let chosen = floor_box.grants.as_slice().first().copied();
    match dice.below(11) {
        0 => Light::Before {
            left: running(dice, 62_500_000),
            random: edgy(dice, spare).min(spare),
            sync,
        },
        1 => Light::Random {
            left: running(dice, spare),
            sync,
        },
        2 | 3 => Light::Warming {
            left: running(dice, dice_sync_time(sync)),
        },
        4 => Light::Asking {
            left: running(dice, 42),
        },
        5 => chosen.map_or(Light::Rest, |grant| Light::Due {
            left: running(dice, i32::MAX as u32),
            grant,
            sync: grant.length.saturating_sub(106).min(floor_box.sync),
        }),
        6 => Light::Lit {
            left: running(dice, 32 + sync),
            length: needed_length(sync) + dice.below(u64::from(spare) + 1) as u32,
            sync,
        },
        7 => Light::Open {
            left: running(dice, 65_471),
        },
        8 => Light::Fading {
            left: fading_left(dice, floor_box),
        },
        _ => Light::Rest,
    }
}

/// Ticks left of fading, often as many as to the start of a grant.
fn fading_left(dice: &mut Dice, floor_box: &FloorBox) -> u32 {
    let left = running(dice, 32);
    let grants = floor_box.grants.as_slice().iter();
    let mut starts = grants.filter_map(|grant| floor_box.count.ticks_until(grant.start));
    let start = starts.find(|ticks| (1..=32).contains(ticks));
    start.filter(|_| dice.chance(500)).unwrap_or(left)
}

/// Laser time for a sync, kept short so that windows are reached.
fn dice_sync_time(sync: u32) -> u32 {
    (32 + sync).min(100)
}

fn spoil_box(dice: &mut Dice, floor_box: &mut FloorBox) {
    match dice.below(9) {
        0 => floor_box.address = address(dice),
        1 => floor_box.wait = edgy(dice, WAIT),
        2 => floor_box.watchdog = edgy(dice, WATCHDOG),
        3 => floor_box.report = edgy(dice, PERIOD),
        4 => floor_box.grants = list(dice, floor_box),
        5 => floor_box.light = light(dice, floor_box),
        6 => floor_box.light = wild_light(dice, floor_box),
        7 => floor_box.light = wild_light(dice, floor_box),
        _ => floor_box.state = dice.pick(&[BoxState::Wait, BoxState::Registered]),
    }
}

/// A transmitter whose numbers needn't fit each other.
fn wild_light(dice: &mut Dice, floor_box: &FloorBox) -> Light {
    let longest = dice.pick(&[42, 32, 65_429, 65_461, 65_471, 62_500_000, i32::MAX as u32]);
    let left = edgy(dice, longest);
    let (length, sync) = (quanta(dice), quanta(dice));
    let start = near(dice, floor_box.count);
    let random = edgy(dice, LONGEST);
    match dice.below(8) {
        0 => Light::Before { left, random, sync },
        1 => Light::Random { left, sync },
        2 => Light::Warming { left },
        3 => Light::Asking { left },
        4 => Light::Due {
            left,
            grant: Grant { start, length },
            sync,
        },
        5 => Light::Lit { left, length, sync },
        6 => Light::Open { left },
        _ => Light::Fading { left },
    }
}

pub(crate) fn any_head(dice: &mut Dice) -> Head {
    let window = match dice.below(4) {
        0 => Window::Idle,
        1 => Window::Before {
            left: running(dice, 62_500_000),
            length: running(dice, LONGEST_WINDOW),
        },
        _ => Window::Inside {
            left: running(dice, LONGEST_WINDOW),
        },
    };
    let mut head = Head {
        address: HEAD,
        count: count(dice),
        window,
    };
    if dice.chance(SPOILED / 2) {
        head.address = address(dice);
    }
    if dice.chance(SPOILED / 2) {
        let (left, length) = (edgy(dice, 62_500_000), edgy(dice, LONGEST_WINDOW));
        head.window = dice.pick(&[
            Window::Before { left, length },
            Window::Inside { left: length },
        ]);
    }
    head
}

/// A table of so many links, each box's address its own.
pub(crate) fn any_links(dice: &mut Dice, links: usize) -> Vec<Link> {
    let mut links: Vec<Link> = (0..links as u64)
        .map(|n| any_link(dice, BOX.0 + n))
        .collect();
    if dice.chance(SPOILED) && !links.is_empty() {
        let at = dice.below(links.len() as u64) as usize;
        spoil_link(dice, &mut links, at);
    }
    links
}

fn any_link(dice: &mut Dice, address: u64) -> Link {
    let address = Address(address);
    match dice.below(4) {
        0 => Link::IDLE,
        1 => Link {
            state: LinkState::Waiting,
            address,
            wait: running(dice, WAIT),
            ..Link::IDLE
        },
        _ => Link {
            state: LinkState::Registered,
            address,
            wait: 0,
            watchdog: running(dice, WATCHDOG),
            periodic: running(dice, PERIOD),
        },
    }
}

fn spoil_link(dice: &mut Dice, links: &mut [Link], at: usize) {
    let twin = links[dice.below(links.len() as u64) as usize].address;
    let link = &mut links[at];
    match dice.below(6) {
        0 => link.address = address(dice),
        1 => link.address = twin,
        2 => link.wait = edgy(dice, WAIT),
        3 => link.watchdog = edgy(dice, WATCHDOG),
        4 => link.periodic = edgy(dice, PERIOD),
        _ => link.state = dice.pick(&[LinkState::Idle, LinkState::Waiting, LinkState::Registered]),
    }
}

/// The lines that set a box.
pub(crate) fn box_lines(floor_box: &FloorBox) -> Vec<String> {
    let state = match floor_box.state {
        BoxState::Wait => "wait",
        BoxState::Registering => "registering",
        BoxState::Requesting => "requesting",
        BoxState::Registered => "registered",
    };
    let FloorBox {
        address,
        count,
        wait,
        watchdog,
        report,
        port,
        sync,
        ..
    } = floor_box;
    let grants = floor_box.grants.as_slice();
    let pair = |grant: &Grant| format!(" {} {}", grant.start.0, grant.length);
    let pairs: String = grants.iter().map(pair).collect();
    vec![
        format!(
            "box state {address} {} {state} {wait} {watchdog} {report} {port} {sync}",
            count.0
        ),
        format!("box list {}{pairs}", grants.len()),
        format!("box light {}", light_words(&floor_box.light)),
    ]
}

fn light_words(light: &Light) -> String {
    match *light {
        Light::Rest => "rest".to_owned(),
        Light::Before { left, random, sync } => format!("before {left} {random} {sync}"),
        Light::Random { left, sync } => format!("random {left} {sync}"),
        Light::Warming { left } => format!("warming {left}"),
        Light::Asking { left } => format!("asking {left}"),
        Light::Due { left, grant, sync } => {
            format!("due {left} {} {} {sync}", grant.start.0, grant.length)
        }
        Light::Lit { left, length, sync } => format!("lit {left} {length} {sync}"),
        Light::Open { left } => format!("open {left}"),
        Light::Fading { left } => format!("fading {left}"),
    }
}

/// The line that sets a head.
pub(crate) fn head_line(head: &Head) -> String {
    let window = match head.window {
        Window::Idle => "idle 0 0".to_owned(),
        Window::Before { left, length } => format!("before {left} {length}"),
        Window::Inside { left } => format!("inside {left} 0"),
    };
    format!("head state {} {} {window}", head.address, head.count.0)
}

/// The line that sets link `number`.
pub(crate) fn link_line(number: usize, link: &Link) -> String {
    let state = match link.state {
        LinkState::Idle => "idle",
        LinkState::Waiting => "waiting",
        LinkState::Registered => "registered",
    };
    let Link {
        address,
        wait,
        watchdog,
        periodic,
        ..
    } = link;
    format!("head link {number} {state} {address} {wait} {watchdog} {periodic}")
}
