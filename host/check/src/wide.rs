//! Values that the replay language can't write: addresses of more than 48
//! bits, lengths and sync times of more than 16, sets that aren't as many as
//! they are said to be; and what it never lets the writer see, sources that no
//! frame may have and bodies of a REPORT that run past or aren't zero behind
//! their sets. Both cores are asked directly, one call at a time, and what they
//! read or tell is compared whole, with what no line prints of it. No message of such values is heard: what is heard is
//! octets, and no octets hold them, or none that are read.

use crate::generate::messages::{any_frame, any_message, fitting, frame_of, granted, For};
use crate::generate::queue_sets;
use crate::generate::states::{any_box, any_head, any_links};
use crate::generate::values::{address, count, sync, ticks_ahead};
use crustnewt_core::{Advanced, Core, HeadCore, HeadReply};
use crustnewt_tool::dice::Dice;
use plain::{
    Address, Body, FloorBox, Gate, GateRequest, Grant, GrantList, Light, Link, Message, Newcomer,
    OpenWindow, QueueSets,
};
use std::fmt::Debug;

/// Makes the calls of this seed on both; how they differ, if they do.
pub fn compare_wide(first: &dyn Core, second: &dyn Core, seed: u64) -> Option<String> {
    let [told_first, told_second] = [first, second].map(|core| {
        let mut dice = Dice::new(seed);
        [
            writing(core, &mut dice),
            reading(core, &mut dice),
            box_call(core, &mut dice),
            head_call(core, &mut dice),
        ]
    });
    let mut pairs = told_first.into_iter().zip(told_second);
    let (first, second) = pairs.find(|(first, second)| first != second)?;
    Some(format!("first:  {first}\nsecond: {second}"))
}

fn writing(core: &dyn Core, dice: &mut Dice) -> String {
    let message = wide_message(dice);
    told(&message, core.write(&message))
}

fn reading(core: &dyn Core, dice: &mut Dice) -> String {
    let frame = any_frame(dice);
    told(&frame, core.read(&frame))
}

fn box_call(core: &dyn Core, dice: &mut Dice) -> String {
    let mut state = any_box(dice);
    if dice.chance(400) {
        widen_box(dice, &mut state);
    }
    let mut floor_box = core.floor_box();
    floor_box.set_state(&state);
    let frame = any_frame(dice);
    let (number, sets) = miscounted(dice);
    let silent = floor_box.ticks_until();
    let reply = match dice.below(7) {
        0 => single(floor_box.fresh(wide_address(dice))),
        1 => single(floor_box.hear(&frame, 0)),
        2 => single(floor_box.register()),
        3 => single(floor_box.deregister()),
        4 => single(floor_box.report(number, &sets)),
        5 => floor_box.advance(ticks_ahead(dice, &[state.light.left()])),
        _ => single(floor_box.tick()),
    };
    let asked = (state, frame, number, sets);
    told(&asked, (reply, silent, floor_box.state()))
}

/// Sets to ask for, some with another number or with octets too few or too
/// many.
fn miscounted(dice: &mut Dice) -> (u8, Vec<u8>) {
    let sets = queue_sets::asked(dice);
    let (number, mut octets) = (sets.len() as u8, queue_sets::octets(&sets));
    match dice.below(6) {
        0 => octets.truncate(octets.len().saturating_sub(1 + dice.below(2) as usize)),
        1 => octets.push(dice.pick(&[0, 1])),
        2 => return (number.wrapping_add(dice.pick(&[1, 255])), octets),
        3 => return (dice.half() as u8, octets),
        _ => {}
    }
    (number, octets)
}

/// A call that tells no ticks.
fn single<R>(reply: R) -> Advanced<R> {
    Advanced { reply, made: 0 }
}

fn head_call(core: &dyn Core, dice: &mut Dice) -> String {
    let (state, mut table) = (any_head(dice), any_links(dice, 2));
    if dice.chance(200) {
        table[0].address = wide_address(dice);
    }
    let mut head = core.head();
    head.lend_links(table.len());
    head.lend_output(vec![0xEE; 120]);
    head.set_state(&state);
    for (place, link) in table.iter().enumerate() {
        head.set_link(place, link);
    }
    let asked = (dice.clone(), state, table);
    let silent = head.ticks_until();
    let reply = match dice.below(9) {
        0 => head.advance(ticks_ahead(dice, &[])),
        _ => single(head_request(&mut *head, dice)),
    };
    let links: Vec<Link> = (0..head.links()).map(|place| head.link(place)).collect();
    told(&asked, (reply, silent, head.state(), links, head.output()))
}

fn head_request(head: &mut dyn HeadCore, dice: &mut Dice) -> HeadReply {
    let newcomer = Newcomer {
        address: wide_address(dice),
        pending: 1,
        sync: wide(dice, 7),
    };
    let mut grants = [Grant::default(); Gate::MOST];
    for grant in &mut grants {
        *grant = wide_grant(dice);
    }
    match dice.below(8) {
        0 => head.admit(&newcomer),
        1 => head.reject(&newcomer),
        2 => head.reregister(1, newcomer.sync),
        3 => head.open_window(&OpenWindow {
            grant: grants[0],
            sync: newcomer.sync,
            window: 1,
        }),
        4 => head.gate(&GateRequest {
            link: 1,
            force: 0,
            asked: dice.below(6),
            grants,
        }),
        5 => {
            let link = dice.below(3);
            let frame = frame_on(head, dice, link);
            head.hear(link, &frame)
        }
        6 => head.fresh(newcomer.address),
        _ => head.tick(),
    }
}

/// A frame of any kind, or one that this link is there to hear.
fn frame_on(head: &dyn HeadCore, dice: &mut Dice, link: u64) -> Vec<u8> {
    if dice.chance(500) || link == 0 {
        return any_frame(dice);
    }
    let named = head.link(link as usize - 1);
    let body = fitting(dice, Some(named.state));
    frame_of(dice, For::Head, head.state().count, named.address, body)
}

fn told(asked: &impl Debug, answered: impl Debug) -> String {
    format!("{asked:?}\n  answered {answered:?}")
}

/// The number, or one that doesn't fit 16 bits.
fn wide(dice: &mut Dice, number: u32) -> u32 {
    match dice.below(3) {
        0 => dice.pick(&[65_536, 65_537, 1 << 17, u32::MAX, u32::MAX - 105]),
        _ => number,
    }
}

fn wide_address(dice: &mut Dice) -> Address {
    let address = address(dice);
    match dice.below(3) {
        0 => Address(address.0 | dice.pick(&[1 << 48, 1 << 63])),
        _ => address,
    }
}

fn wide_grant(dice: &mut Dice) -> Grant {
    let now = count(dice);
    let grant = granted(dice, now).grant;
    Grant {
        length: wide(dice, grant.length),
        ..grant
    }
}

fn wide_message(dice: &mut Dice) -> Message {
    let mut message = any_message(dice);
    match dice.below(6) {
        0 => message.to = wide_address(dice),
        1 => message.from = wide_address(dice),
        _ => {}
    }
    match &mut message.body {
        Body::Gate(gate) => {
            let mut grants: Vec<_> = gate.iter().collect();
            for granted in &mut grants {
                granted.grant.length = wide(dice, granted.grant.length);
            }
            *gate = Gate::of(&grants).unwrap_or_default();
        }
        Body::Discovery { granted, sync } => {
            granted.grant.length = wide(dice, granted.grant.length);
            *sync = wide(dice, *sync);
        }
        Body::Register { sync, .. } | Body::RegisterAck { sync, .. } => *sync = wide(dice, *sync),
        Body::Report(sets) if dice.chance(500) => {
            *sets = QueueSets::of_octets(queue_sets::body(dice));
        }
        Body::Report(_) | Body::RegisterReq { .. } => {}
    }
    message
}

fn widen_box(dice: &mut Dice, state: &mut FloorBox) {
    let own = sync(dice);
    match dice.below(4) {
        0 => state.sync = wide(dice, own),
        1 => state.address = wide_address(dice),
        2 => {
            let grants = [wide_grant(dice), wide_grant(dice)];
            state.grants = GrantList::of(&grants).unwrap_or_default();
        }
        _ => {
            let (length, sync) = (wide(dice, 200), wide(dice, own));
            let left = 1;
            state.light = dice.pick(&[
                Light::Lit { left, length, sync },
                Light::Random { left, sync },
                Light::Before {
                    left,
                    random: length,
                    sync,
                },
            ]);
        }
    }
}
