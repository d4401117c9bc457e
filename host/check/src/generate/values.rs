//! Values that lie where mistakes are made.

use crustnewt_tool::dice::Dice;
use plain::numbers::{needed_length, LONGEST};
use plain::{Address, Count};

/// The head of most cases.
pub(crate) const HEAD: Address = Address(0x0200_0000_0001);
/// The box of most cases.
pub(crate) const BOX: Address = Address(0x0200_0000_0031);
/// The bit that marks a group.
pub(crate) const GROUP: u64 = 1 << 40;
/// Every bit set: a group's.
pub(crate) const ONES: Address = Address(0xFFFF_FFFF_FFFF);

/// A number at or near the ends of 0 .. `longest`, or anywhere.
pub(crate) fn edgy(dice: &mut Dice, longest: u32) -> u32 {
    match dice.below(10) {
        0 => 0,
        1 | 2 => 1,
        3 => 2,
        4 => longest,
        5 => longest.saturating_sub(1),
        6 => longest.saturating_add(1),
        7 => dice.below(100) as u32,
        8 => dice.half(),
        _ => dice.below(u64::from(longest) + 1) as u32,
    }
}

/// A number in 1 .. `longest`, often at an end.
pub(crate) fn running(dice: &mut Dice, longest: u32) -> u32 {
    edgy(dice, longest).clamp(1, longest.max(1))
}

/// How far to advance where something happens after so many ticks each (0:
/// nothing does): about as far, near the ends of what one call may make, or
/// somewhere else.
pub(crate) fn ticks_ahead(dice: &mut Dice, ends: &[u32]) -> u64 {
    let wide = [
        0,
        1,
        2,
        65_535,
        65_536,
        65_537,
        (1 << 32) + 1,
        (1 << 32) + 65_536,
        u64::MAX,
    ];
    let ends = ends.iter().filter(|&&end| end > 0);
    let ends: Vec<u64> = ends.map(|&end| u64::from(end)).collect();
    match dice.below(8) {
        0 | 1 => dice.pick(&wide),
        2 | 3 => 65_536,
        4 => dice.below(700),
        _ if ends.is_empty() => 1 + dice.below(65_536),
        _ => dice.pick(&ends) + dice.below(3) - 1,
    }
}

/// A length or sync time that the wire can hold.
pub(crate) fn quanta(dice: &mut Dice) -> u32 {
    let near = dice.pick(&[
        0, 10, 42, 74, 105, 106, 107, 116, 174, 65_429, 65_430, 65_535,
    ]);
    match dice.below(3) {
        0 => near,
        1 => dice.below(400) as u32,
        _ => edgy(dice, 65_535).min(65_535),
    }
}

/// A length around the one that is needed for a sync time, or any.
pub(crate) fn length_for(dice: &mut Dice, sync: u32) -> u32 {
    match dice.below(3) {
        0 => (needed_length(sync) + dice.below(3) as u32 - 1).min(LONGEST),
        _ => quanta(dice),
    }
}

/// A sync time, mostly one that leaves room in a grant.
pub(crate) fn sync(dice: &mut Dice) -> u32 {
    match dice.below(4) {
        0 => quanta(dice),
        1 => 0,
        _ => dice.below(50) as u32,
    }
}

/// A count, often close to the wrap.
pub(crate) fn count(dice: &mut Dice) -> Count {
    Count(match dice.below(4) {
        0 => dice.below(300) as u32,
        1 => (dice.below(300) as u32).wrapping_sub(150),
        2 => 0x8000_0000_u32.wrapping_add(dice.below(9) as u32),
        _ => dice.half(),
    })
}

/// A count before, at or after another.
pub(crate) fn near(dice: &mut Dice, count: Count) -> Count {
    let offset = match dice.below(9) {
        0 => 0,
        1 => dice.below(10) as u32,
        2 => (dice.below(10) as u32).wrapping_neg(),
        3 => 62_500_000 + dice.below(3) as u32 - 1,
        4 => 0x8000_0000_u32.wrapping_add(dice.below(3) as u32) - 1,
        5 => dice.half(),
        // Where light that was just ordered off is dark.
        6 => 31 + dice.below(3) as u32,
        _ => dice.below(500) as u32,
    };
    Count(count.0.wrapping_add(offset))
}

/// An address: one of the parties', another box's, or no party's at all.
pub(crate) fn address(dice: &mut Dice) -> Address {
    match dice.below(12) {
        0..=2 => HEAD,
        3..=5 => BOX,
        6 | 7 => Address(BOX.0 + dice.below(64)),
        8 => Address::EVERYONE,
        9 => Address::ZERO,
        10 => Address(dice.word() >> 16),
        _ => dice.pick(&[ONES, Address(GROUP)]),
    }
}

/// A source beside the usual one: another party's, or one that no frame may
/// have (R237).
pub(crate) fn other_source(dice: &mut Dice, usual: Address) -> Address {
    match dice.below(6) {
        0 => Address::ZERO,
        1 => Address(usual.0 | GROUP),
        2 => ONES,
        // Of all bits by themselves one is judged.
        3 => Address(1 << dice.below(48)),
        _ => address(dice),
    }
}
