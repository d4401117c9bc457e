//! Calls on a head in a state handed in, with outputs of every length.

use super::messages::{fitting, frame_for, frame_of, granted, For};
use super::states::{any_head, any_links, head_line, link_line};
use super::values::{address, length_for, near, sync, ticks_ahead, BOX, HEAD};
use crustnewt_tool::dice::Dice;
use crustnewt_tool::replay::hex;
use plain::numbers::LONGEST_WINDOW;
use plain::{Count, Head, Link, Window};

pub(crate) fn script(dice: &mut Dice) -> Vec<String> {
    let links = match dice.below(12) {
        0 => dice.pick(&[0, 63, 64, 65, 66]),
        _ => dice.pick(&[1, 1, 1, 2, 2, 3, 4, 8]),
    };
    let own = if dice.chance(900) {
        HEAD
    } else {
        address(dice)
    };
    let mut script = vec![format!("head new {links} {own}")];
    if dice.chance(250) {
        script.push(output(dice, 60 * links));
    }
    let states = 1 + dice.below(3);
    for _ in 0..states {
        let head = any_head(dice);
        let table = any_links(dice, links as usize);
        script.extend(lines(&head, &table));
        for _ in 0..2 {
            script.extend(advance_and_back(dice, &head, &table));
        }
        let calls = 1 + dice.below(6);
        for _ in 0..calls {
            script.push(call(dice, &head, &table));
        }
    }
    if dice.chance(200) {
        script.push(format!("head new {} {}", dice.below(68), address(dice)));
    }
    script
}

/// An output about as long as is needed, or of any length.
fn output(dice: &mut Dice, needed: u64) -> String {
    let octets = match dice.below(4) {
        0 => needed.saturating_sub(1),
        1 => needed,
        2 => needed + 1,
        _ => dice.below(needed + 2),
    };
    format!("head output {}", octets.min(4096))
}

/// The lines that set a head and its table.
fn lines(head: &Head, table: &[Link]) -> Vec<String> {
    let links = table.iter().enumerate();
    let links = links.map(|(place, link)| link_line(place + 1, link));
    [head_line(head)].into_iter().chain(links).collect()
}

fn call(dice: &mut Dice, head: &Head, table: &[Link]) -> String {
    let now = head.count;
    let link = link_number(dice, table.len());
    match dice.below(13) {
        0 => open(dice, now),
        1 => format!("head admit {}", newcomer(dice)),
        2 => format!("head reject {}", newcomer(dice)),
        3 => format!("head reregister {link} {}", sync(dice)),
        4 => format!("head deregister {link}"),
        5 => gate(dice, link, now),
        6 | 7 => format!("head tick {}", dice.pick(&[1, 1, 2, 3, 42, 100])),
        8 => advance(dice, head, table),
        _ => hear(dice, now, table),
    }
}

/// Advances a head that holds this, and sets it back.
pub(crate) fn advance_and_back(dice: &mut Dice, head: &Head, table: &[Link]) -> Vec<String> {
    let advance = advance(dice, head, table);
    [advance].into_iter().chain(lines(head, table)).collect()
}

/// By about as much as a timer runs.
fn advance(dice: &mut Dice, head: &Head, table: &[Link]) -> String {
    let mut ends: Vec<u32> = match head.window {
        Window::Idle => vec![],
        Window::Before { left, length } => vec![left, left.wrapping_add(length)],
        Window::Inside { left } => vec![left],
    };
    for link in table {
        ends.extend([link.wait, link.watchdog, link.periodic]);
    }
    format!("head advance {}", ticks_ahead(dice, &ends))
}

pub(crate) fn open(dice: &mut Dice, now: Count) -> String {
    let window = match dice.below(4) {
        0 => dice.pick(&[0, 1, LONGEST_WINDOW, LONGEST_WINDOW + 1, u32::MAX]),
        _ => dice.below(500) as u32,
    };
    let start = near(dice, now).0;
    let sync = sync(dice);
    let length = length_for(dice, sync);
    format!("head open {start} {length} {sync} {window}")
}

fn newcomer(dice: &mut Dice) -> String {
    format!("{} {} {}", address(dice), dice.below(256), sync(dice))
}

/// A gate of up to six grants, of which four are handed in.
pub(crate) fn gate(dice: &mut Dice, link: u64, now: Count) -> String {
    let asked = dice.pick(&[0, 1, 2, 3, 4, 5, 6, u64::MAX]);
    let fitting = (1_u64 << asked.min(4)) - 1;
    let force = if dice.chance(800) {
        dice.below(16) & fitting
    } else {
        dice.below(256)
    };
    let mut line = format!("head gate {link} {force} {asked}");
    for _ in 0..asked.min(4) {
        let grant = granted(dice, now).grant;
        line.push_str(&format!(" {} {}", grant.start.0, grant.length));
    }
    line
}

fn hear(dice: &mut Dice, now: Count, table: &[Link]) -> String {
    let link = match dice.below(4) {
        0 => 0,
        _ => link_number(dice, table.len()),
    };
    let place = usize::try_from(link)
        .ok()
        .and_then(|link| link.checked_sub(1));
    let named = place.and_then(|place| table.get(place));
    let held = named.filter(|link| link.is_held());
    let from = held.map_or(BOX, |link| link.address);
    let frame = if dice.chance(700) {
        let body = fitting(dice, named.map(|link| link.state));
        frame_of(dice, For::Head, now, from, body)
    } else {
        frame_for(dice, For::Head, now, from)
    };
    format!("head hear {link} {}", hex(&frame))
}

/// A link number: mostly in the table, 0, or one that isn't allowed.
fn link_number(dice: &mut Dice, links: usize) -> u64 {
    let links = links as u64;
    match dice.below(12) {
        0 | 1 => 0,
        2 => links + 1,
        3 => dice.pick(&[65_536, 65_537, u64::MAX, 1 << 32, (1 << 32) + 1]),
        _ => 1 + dice.below(links.max(1)),
    }
}
