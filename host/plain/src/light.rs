//! The box's transmitter: laser, windows and the waits before them.

use crate::grants::{Grant, GrantList};
use crate::numbers::{
    needed_length, runs, CONTROL_FRAME, FURTHEST_START, LASER_OFF, LASER_ON, LONGEST,
};

/// Longest wait for a normal grant: the largest distance.
const FURTHEST: u32 = i32::MAX as u32;
/// Longest time of the laser before a discovery window: the sync isn't kept
/// any more, so the largest one that a needed length can hold.
const LONGEST_WARMING: u32 = LONGEST - CONTROL_FRAME - LASER_OFF;
/// Longest normal window: the longest grant without sync.
const LONGEST_OPEN: u32 = LONGEST - LASER_ON - LASER_OFF;

/// What the transmitter does; `left` is the ticks left of it.
#[derive(Clone, Copy, Debug, Default, PartialEq, Eq)]
pub enum Light {
    /// Dark, with nothing chosen.
    #[default]
    Rest,
    /// Dark until a discovery grant's start.
    Before {
        /// Ticks left.
        left: u32,
        /// The random wait to come.
        random: u32,
        /// The discovery GATE's sync time.
        sync: u32,
    },
    /// Dark in the random wait after a discovery grant's start.
    Random {
        /// Ticks left.
        left: u32,
        /// The discovery GATE's sync time.
        sync: u32,
    },
    /// Laser on before a discovery window.
    Warming {
        /// Ticks left.
        left: u32,
    },
    /// Transmission enabled in a discovery window.
    Asking {
        /// Ticks left.
        left: u32,
    },
    /// Dark until a normal grant's start; the grant is still in the list.
    Due {
        /// Ticks left.
        left: u32,
        /// The grant waited for.
        grant: Grant,
        /// The sync time held when it was chosen.
        sync: u32,
    },
    /// Laser on before a normal grant's window.
    Lit {
        /// Ticks left.
        left: u32,
        /// The grant's length.
        length: u32,
        /// The sync time held when it was chosen.
        sync: u32,
    },
    /// Transmission enabled in a normal grant.
    Open {
        /// Ticks left.
        left: u32,
    },
    /// Laser ordered off behind either window, and not yet dark.
    Fading {
        /// Ticks left.
        left: u32,
    },
}

impl Light {
    /// Its name, as the replay language has it.
    pub const fn name(&self) -> &'static str {
        match self {
            Light::Rest => "rest",
            Light::Before { .. } => "before",
            Light::Random { .. } => "random",
            Light::Warming { .. } => "warming",
            Light::Asking { .. } => "asking",
            Light::Due { .. } => "due",
            Light::Lit { .. } => "lit",
            Light::Open { .. } => "open",
            Light::Fading { .. } => "fading",
        }
    }

    /// Ticks left of what the transmitter does, 0 at rest.
    pub const fn left(&self) -> u32 {
        match *self {
            Light::Rest => 0,
            Light::Before { left, .. }
            | Light::Random { left, .. }
            | Light::Warming { left }
            | Light::Asking { left }
            | Light::Due { left, .. }
            | Light::Lit { left, .. }
            | Light::Open { left }
            | Light::Fading { left } => left,
        }
    }

    /// The timer of what the transmitter does, none at rest.
    pub fn timer(&mut self) -> Option<&mut u32> {
        match self {
            Light::Rest => None,
            Light::Before { left, .. }
            | Light::Random { left, .. }
            | Light::Warming { left }
            | Light::Asking { left }
            | Light::Due { left, .. }
            | Light::Lit { left, .. }
            | Light::Open { left }
            | Light::Fading { left } => Some(left),
        }
    }

    /// Ticks left in which frames may be sent, 0 while that is disabled.
    pub const fn window(&self) -> u32 {
        match *self {
            Light::Asking { left } | Light::Open { left } => left,
            _ => 0,
        }
    }

    /// Whether this is a sound transmitter beside that list (R82 to R87).
    pub(crate) fn is_sound(&self, list: &GrantList) -> bool {
        match *self {
            Light::Rest => true,
            Light::Before { left, random, sync } => {
                runs(left, FURTHEST_START)
                    && longest_random(sync).is_some_and(|longest| random <= longest)
            }
            Light::Random { left, sync } => {
                longest_random(sync).is_some_and(|longest| runs(left, longest))
            }
            Light::Warming { left } => runs(left, LONGEST_WARMING),
            Light::Asking { left } => runs(left, CONTROL_FRAME),
            Light::Due { left, grant, sync } => {
                runs(left, FURTHEST)
                    && serves(grant.length, sync)
                    && list.as_slice().contains(&grant)
            }
            Light::Lit { left, length, sync } => {
                serves(length, sync) && runs(left, LASER_ON + sync)
            }
            Light::Open { left } => runs(left, LONGEST_OPEN),
            Light::Fading { left } => runs(left, LASER_OFF),
        }
    }

    /// Waits for a discovery grant, then its random wait, then lights;
    /// waits of 0 are passed.
    pub(crate) const fn before(left: u32, random: u32, sync: u32) -> Light {
        match left {
            0 => Light::random(random, sync),
            _ => Light::Before { left, random, sync },
        }
    }

    /// The random wait after a discovery grant's start, then laser on.
    pub(crate) const fn random(left: u32, sync: u32) -> Light {
        match left {
            0 => Light::Warming {
                left: LASER_ON + sync,
            },
            _ => Light::Random { left, sync },
        }
    }

    /// Laser on for a normal grant.
    pub(crate) const fn lit(length: u32, sync: u32) -> Light {
        Light::Lit {
            left: LASER_ON + sync,
            length,
            sync,
        }
    }

    /// What a normal grant leaves between its laser's times (R133).
    pub(crate) const fn open(length: u32, sync: u32) -> Light {
        Light::Open {
            left: length - (LASER_ON + sync) - LASER_OFF,
        }
    }

    /// Laser ordered off (R245).
    pub(crate) const fn fading() -> Light {
        Light::Fading { left: LASER_OFF }
    }

    /// One tick; true when what the transmitter does has come to its end.
    pub(crate) fn run_out(&mut self) -> bool {
        self.timer().is_some_and(crate::numbers::run_out)
    }
}

/// Longest random wait for this sync, `None` where no length serves it.
fn longest_random(sync: u32) -> Option<u32> {
    LONGEST.checked_sub(needed_length(sync))
}

/// Whether a grant of this length is on the wire and serves this sync.
fn serves(length: u32, sync: u32) -> bool {
    length <= LONGEST && length >= needed_length(sync)
}

#[cfg(test)]
mod tests {
    use super::*;
    use crate::clock::Count;

    fn sound(light: Light) -> bool {
        light.is_sound(&GrantList::new())
    }

    #[test]
    fn timers_run_from_one_to_their_longest_setting() {
        let before = |left| Light::Before {
            left,
            random: 0,
            sync: 0,
        };
        assert!(!sound(before(0)) && sound(before(1)));
        assert!(sound(before(62_500_000)) && !sound(before(62_500_001)));
        let asking = |left| Light::Asking { left };
        assert!(!sound(asking(0)) && sound(asking(42)) && !sound(asking(43)));
        let open = |left| Light::Open { left };
        assert!(!sound(open(0)) && sound(open(65_471)) && !sound(open(65_472)));
        let warming = |left| Light::Warming { left };
        assert!(!sound(warming(0)) && sound(warming(65_461)) && !sound(warming(65_462)));
        let fading = |left| Light::Fading { left };
        assert!(!sound(fading(0)) && sound(fading(1)));
        assert!(sound(fading(32)) && !sound(fading(33)));
    }

    #[test]
    fn random_wait_is_judged_with_its_sync() {
        let before = |random, sync| Light::Before {
            left: 1,
            random,
            sync,
        };
        assert!(sound(before(65_429, 0)) && !sound(before(65_430, 0)));
        assert!(sound(before(0, 65_429)) && !sound(before(0, 65_430)));
        let random = |left, sync| Light::Random { left, sync };
        assert!(!sound(random(0, 0)) && sound(random(65_429, 0)) && !sound(random(65_430, 0)));
        assert!(sound(random(1, 65_428)) && !sound(random(1, 65_429)));
        assert!(!sound(random(1, u32::MAX)));
    }

    #[test]
    fn grant_waited_for_is_in_the_list_and_long_enough() {
        let grant = Grant {
            start: Count(9),
            length: 116,
        };
        let list = GrantList::of(&[grant]).unwrap();
        let due = |grant, sync| Light::Due {
            left: 1,
            grant,
            sync,
        };
        assert!(due(grant, 10).is_sound(&list));
        assert!(!due(grant, 11).is_sound(&list));
        assert!(!due(
            Grant {
                length: 117,
                ..grant
            },
            10
        )
        .is_sound(&list));
        assert!(!sound(due(grant, 10)));
    }

    #[test]
    fn laser_time_is_judged_with_its_sync() {
        let lit = |left, length, sync| Light::Lit { left, length, sync };
        assert!(sound(lit(42, 116, 10)) && !sound(lit(43, 116, 10)));
        assert!(!sound(lit(42, 115, 10)) && !sound(lit(0, 116, 10)));
        assert!(!sound(lit(1, 65_536, 0)) && !sound(lit(1, u32::MAX, u32::MAX)));
    }

    #[test]
    fn waits_of_zero_are_passed() {
        assert_eq!(Light::before(0, 0, 5), Light::Warming { left: 37 });
        assert_eq!(Light::before(0, 3, 5), Light::Random { left: 3, sync: 5 });
    }
}
