//! Queue sets that fill a REPORT's body in part, wholly, or too far.

use crustnewt_tool::dice::Dice;
use plain::{QueueSet, QueueSets};
use std::fmt::Write;

/// Octets that a body has for sets, beside their number (R240).
const ROOM: u64 = QueueSets::OCTETS as u64 - 1;

/// Sets that a REPORT can have: often none, often as many as there is room for.
pub(crate) fn fitting(dice: &mut Dice) -> QueueSets {
    let taken = match dice.below(4) {
        0 => 0,
        1 => ROOM - dice.below(3),
        2 => dice.below(4),
        _ => dice.below(ROOM + 1),
    };
    let sets = taking(dice, taken);
    QueueSets::of(sets.len() as u8, &octets(&sets)).expect("they take no more than the room")
}

/// Sets to ask for, of which many take an octet or two too few or too many.
pub(crate) fn asked(dice: &mut Dice) -> Vec<QueueSet> {
    let taken = match dice.below(5) {
        0 => 0,
        1 => dice.below(ROOM),
        2 | 3 => ROOM + dice.below(4) - 1,
        _ => dice.below(300),
    };
    taking(dice, taken)
}

/// A body that is read as it is: with pad, with a number that isn't that of
/// its sets, or with sets that run past its end.
pub(crate) fn body(dice: &mut Dice) -> [u8; QueueSets::OCTETS] {
    let sets = asked(dice);
    let number = sets.len() as u8;
    let number = match dice.below(6) {
        0 => number.wrapping_add(1),
        1 => number.wrapping_sub(1),
        2 => dice.half() as u8,
        _ => number,
    };
    let mut body = [number; QueueSets::OCTETS];
    let pad = dice.pick(&[0, 1, 0xFF]);
    let octets = octets(&sets).into_iter().chain(std::iter::repeat(pad));
    for (place, octet) in body[1..].iter_mut().zip(octets) {
        *place = octet;
    }
    body
}

/// Their octets, as they stand in a frame.
pub(crate) fn octets(sets: &[QueueSet]) -> Vec<u8> {
    let mut octets = Vec::new();
    for set in sets {
        octets.push(set.bitmap);
        let lengths = set.queues().map(|(_, length)| length.to_be_bytes());
        octets.extend(lengths.flatten());
    }
    octets
}

/// The line that asks for them.
pub(crate) fn line(sets: &[QueueSet]) -> String {
    let mut line = format!("box report {}", sets.len());
    for set in sets {
        // Writing into a string doesn't fail.
        let _ = write!(line, " {}", set.bitmap);
        for (_, length) in set.queues() {
            let _ = write!(line, " {length}");
        }
    }
    line
}

/// Sets that take exactly so many octets, if 255 of them have as many.
fn taking(dice: &mut Dice, octets: u64) -> Vec<QueueSet> {
    let alike = dice.chance(300).then(|| bitmap(dice));
    let mut sets = Vec::new();
    let mut left = octets;
    while left > 0 && sets.len() < 255 {
        let mut bitmap = alike.unwrap_or_else(|| bitmap(dice));
        while u64::from(2 * bitmap.count_ones()) >= left {
            bitmap &= bitmap - 1;
        }
        left -= 1 + u64::from(2 * bitmap.count_ones());
        let lengths = [0; 8].map(|_: u16| length(dice));
        sets.push(QueueSet { bitmap, lengths });
    }
    sets
}

/// A bitmap with no bit set, one, all, all but one, or any.
fn bitmap(dice: &mut Dice) -> u8 {
    let bit = 1 << dice.below(8);
    let any = dice.half() as u8;
    dice.pick(&[0, bit, 0xFF, !bit, any])
}

fn length(dice: &mut Dice) -> u16 {
    let any = dice.half() as u16;
    dice.pick(&[0, 1, 0xFFFF, any])
}
