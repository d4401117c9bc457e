//! Octets and words to hand in.

use crate::judge::SOURCE;
use crustnewt::sys::{BOX_WORDS, FRAME_OCTETS, LINK_WORDS};
use crustnewt::{
    AckFlag, Body, Grant, Granted, Message, QueueSets, RegisterFlag, RequestFlag, UpTo,
};
use crustnewt_tool::dice::Dice;

/// The head of every case.
pub const HEAD: u64 = 0x0200_0000_0001;
/// The box of every case.
pub const BOX: u64 = 0x0200_0000_0031;
const EVERYONE: u64 = 0x0180_C200_0001;
/// Octets of a frame's body.
const BODY_OCTETS: usize = FRAME_OCTETS - 20;

/// Where a box's words have its transmitter, and the first of its grants.
const LIGHT: usize = 8;
const LIST: usize = 13;

/// Words where fields and limits end.
const EDGES: [u64; 22] = [
    0,
    1,
    2,
    3,
    4,
    16,
    17,
    32,
    33,
    42,
    106,
    65_535,
    65_536,
    131_072,
    3_125_000,
    62_500_000,
    0x7FFF_FFFF,
    u32::MAX as u64,
    1 << 32,
    1 << 48,
    1 << 63,
    u64::MAX,
];

/// A length: mostly the usual one, else any up to the longest.
pub fn within(dice: &mut Dice, usual: usize, longest: usize) -> usize {
    match dice.chance(500) {
        true => usual,
        false => dice.below(longest as u64 + 1) as usize,
    }
}

/// How far to advance where these words have timers among them: about as far as
/// one of them runs, near the ends of the range, or just on.
pub fn ticks(dice: &mut Dice, timers: &[u64]) -> u64 {
    let near = match timers {
        [] => 0,
        timers => dice.pick(timers),
    };
    match dice.below(5) {
        0 => dice.pick(&[0, 1, 2, 65_535, 65_536, 65_537, (1 << 32) + 1, u64::MAX]),
        1 => 1 + dice.below(65_536),
        2 => 65_536,
        _ => near.wrapping_add(dice.below(3)).wrapping_sub(1),
    }
}

/// An address: a party's, another box's, or none.
pub fn address(dice: &mut Dice) -> u64 {
    let box_near = BOX + dice.below(70);
    let any = dice.word();
    dice.pick(&[HEAD, BOX, BOX, box_near, EVERYONE, 0, any, any >> 16])
}

/// A box's words: any state, with its timers at their longest.
pub fn any_box(dice: &mut Dice) -> Vec<u64> {
    let (state, wait, watchdog, report) = dice.pick(&[
        (0, 0, 0, 0),
        (1, 0, 0, 0),
        (2, 3_125_000, 0, 0),
        (3, 0, 62_500_000, 3_125_000),
    ]);
    let mut block = vec![BOX, 0, state, wait, watchdog, report];
    block.resize(BOX_WORDS, 0);
    block
}

/// A table of so many idle links, or with the box registered on this one.
pub fn any_links(dice: &mut Dice, links: usize, held: usize) -> Vec<u64> {
    let mut table = vec![[0; LINK_WORDS]; links];
    if dice.chance(500) && held > 0 {
        table[held - 1] = [BOX, 2, 0, 62_500_000, 3_125_000];
    }
    table.into_flattened()
}

/// Sets one word to another, often where a field ends.
pub fn spoil(dice: &mut Dice, words: &mut [u64]) {
    let at = dice.below(words.len() as u64) as usize;
    if let Some(word) = words.get_mut(at) {
        *word = match dice.below(6) {
            0 => dice.word(),
            1 => u64::from(dice.half()),
            2 => word.wrapping_add(1),
            3 => word.wrapping_sub(1),
            _ => dice.pick(&EDGES),
        };
    }
}

/// Sets a box's transmitter to any phase, close to its end or to where fading
/// begins, mostly with what the phase holds.
pub fn relight(dice: &mut Dice, block: &mut [u64]) {
    let (phase, left) = (dice.below(9), dice.pick(&[1, 1, 2, 3, 32, 33]));
    let grant = dice.pick(&[0, 105, 106, 132, block[LIST]]);
    let held = [1, 5, 6].contains(&phase) || dice.chance(50);
    let grant = if held { grant } else { 0 };
    block[LIGHT..][..4].copy_from_slice(&[phase, left, grant, 0]);
}

/// Octets to be heard: a frame that was handed out, one made up, a damaged
/// one, or noise of any length.
pub fn frame(dice: &mut Dice, kept: &[Vec<u8>]) -> Vec<u8> {
    let mut octets = match dice.below(10) {
        0..=4 if !kept.is_empty() => kept[dice.below(kept.len() as u64) as usize].clone(),
        9 => (0..dice.below(70)).map(|_| dice.half() as u8).collect(),
        _ => made_up(dice),
    };
    if dice.chance(100) {
        if let Some(octet) = octets.get_mut(dice.below(60) as usize) {
            *octet ^= 1 << dice.below(8);
        }
    }
    if dice.chance(50) {
        let length = within(dice, 59, 70);
        octets.resize(length, 0);
    }
    octets
}

/// A source: mostly a party's, else any address, also such as no frame is from.
pub fn source(dice: &mut Dice) -> u64 {
    let box_near = BOX + dice.below(70);
    match dice.chance(800) {
        true => dice.pick(&[HEAD, BOX, BOX, box_near]),
        false => address(dice),
    }
}

/// How many queue sets, and octets for them: mostly whole sets, about as many
/// as there is room for; else an octet too few or too many, or another number.
pub fn sets(dice: &mut Dice) -> (u8, Vec<u8>) {
    let most = dice.pick(&[0, 9, 38, 39, 39, 40, 41, 300]);
    let (mut number, mut sets) = (0_u8, Vec::new());
    while sets.len() < most && number < u8::MAX {
        let (bit, any) = (1 << dice.below(8), dice.half() as u8);
        let mut bitmap: u8 = dice.pick(&[0, bit, 0xFF, any]);
        while sets.len() + 2 * bitmap.count_ones() as usize >= most {
            bitmap &= bitmap - 1;
        }
        sets.push(bitmap);
        sets.extend((0..2 * bitmap.count_ones()).map(|_| dice.half() as u8));
        number += 1;
    }
    match dice.below(12) {
        0 => number = number.wrapping_add(1),
        1 => number = number.wrapping_sub(1),
        2 => number = dice.half() as u8,
        3 => sets.push(dice.pick(&[0, 1])),
        4 | 5 => sets.truncate(sets.len().saturating_sub(1 + dice.below(2) as usize)),
        _ => {}
    }
    (number, sets)
}

/// A body of such sets, cut off or padded: in range or not.
fn report(dice: &mut Dice) -> QueueSets {
    let (number, sets) = sets(dice);
    let mut octets = [dice.pick(&[0, 0, 0xFF]); BODY_OCTETS];
    octets[0] = number;
    for (octet, said) in octets[1..].iter_mut().zip(sets) {
        *octet = said;
    }
    QueueSets::of_octets(octets)
}

fn made_up(dice: &mut Dice) -> Vec<u8> {
    let body = body(dice);
    let (to, from) = (address(dice) % (1 << 48), source(dice));
    let stamp = dice.below(2000) as u32;
    let mut frame = [0; FRAME_OCTETS];
    let empty = Body::Report(QueueSets::NONE);
    let written = match body {
        Body::Report(_) => empty,
        other => other,
    };
    // Refused, it is zeros, which are no frame.
    let _ = Message::new(to, HEAD, stamp, &written).write(&mut frame);
    // The writer would refuse a source, and a REPORT's body, that are to be
    // refused by the reader.
    if let Body::Report(sets) = body {
        frame[FRAME_OCTETS - BODY_OCTETS..].copy_from_slice(&sets.octets());
    }
    frame[SOURCE].copy_from_slice(&from.to_be_bytes()[2..]);
    frame.to_vec()
}

fn body(dice: &mut Dice) -> Body {
    let granted = Granted {
        grant: Grant {
            start: dice.below(3000) as u32,
            length: dice.below(400) as u32,
        },
        force: dice.chance(200),
    };
    let (port, sync) = (dice.below(70) as u16, dice.below(80) as u32);
    let pending = dice.half() as u8;
    let register = |flag| Body::Register {
        flag,
        port,
        sync,
        pending,
    };
    match dice.below(10) {
        0 | 1 => {
            let grants = dice.below(5) as usize;
            Body::Gate(UpTo::of(&[granted; 4][..grants]).unwrap_or_default())
        }
        2 => Body::Discovery { granted, sync },
        3 => Body::Report(report(dice)),
        4 => Body::RegisterReq {
            flag: dice.pick(&[RequestFlag::Register, RequestFlag::Deregister]),
            pending,
        },
        5 => Body::RegisterAck {
            flag: dice.pick(&[AckFlag::Ack, AckFlag::Nack]),
            port,
            sync,
        },
        6 => register(RegisterFlag::Reregister),
        7 => register(RegisterFlag::Deregister),
        8 => register(RegisterFlag::Ack),
        _ => register(RegisterFlag::Nack),
    }
}
