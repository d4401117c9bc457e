//! One record of the head's table (R74 to R77).

use crate::address::Address;
use crate::numbers::{before_first_end, pass, runs, PERIOD, WAIT, WATCHDOG};

/// One link of the head's table.
#[derive(Clone, Copy, Debug, Default, PartialEq, Eq)]
pub struct Link {
    /// Whether and how it is held.
    pub state: LinkState,
    /// Address of the box that holds it, zero when idle.
    pub address: Address,
    /// Ticks left of the wait for REGISTER_ACK, 0 when stopped.
    pub wait: u32,
    /// Ticks left of the watchdog, 0 when stopped.
    pub watchdog: u32,
    /// Ticks left until a periodic GATE, 0 when stopped.
    pub periodic: u32,
}

/// Whether and how a link is held.
#[derive(Clone, Copy, Debug, Default, PartialEq, Eq)]
pub enum LinkState {
    /// Held by no box.
    #[default]
    Idle,
    /// Held, waiting for REGISTER_ACK.
    Waiting,
    /// Held by a registered box.
    Registered,
}

impl Link {
    /// A link that nobody holds.
    pub const IDLE: Link = Link {
        state: LinkState::Idle,
        address: Address::ZERO,
        wait: 0,
        watchdog: 0,
        periodic: 0,
    };

    /// A link that waits for this box's REGISTER_ACK.
    pub(crate) const fn waiting(address: Address) -> Link {
        Link {
            state: LinkState::Waiting,
            address,
            wait: WAIT,
            ..Link::IDLE
        }
    }

    /// A link just registered.
    pub(crate) const fn registered(address: Address) -> Link {
        Link {
            state: LinkState::Registered,
            address,
            watchdog: WATCHDOG,
            periodic: PERIOD,
            ..Link::IDLE
        }
    }

    /// Whether a box holds it.
    pub fn is_held(&self) -> bool {
        self.state != LinkState::Idle
    }

    /// Ticks before the one in which a timer of it ends.
    pub(crate) fn before_ring(&self) -> u32 {
        before_first_end([self.wait, self.watchdog, self.periodic])
    }

    /// So many ticks in which no timer of it ends.
    pub(crate) fn pass(&mut self, ticks: u32) {
        for timer in [&mut self.wait, &mut self.watchdog, &mut self.periodic] {
            pass(timer, ticks);
        }
    }

    /// Whether the record is sound by itself.
    fn is_sound(&self) -> bool {
        let unguarded = self.watchdog == 0 && self.periodic == 0;
        let guarded = runs(self.watchdog, WATCHDOG) && runs(self.periodic, PERIOD);
        match self.state {
            LinkState::Idle => self.address == Address::ZERO && self.wait == 0 && unguarded,
            LinkState::Waiting => {
                self.address.is_individual() && runs(self.wait, WAIT) && unguarded
            }
            LinkState::Registered => self.address.is_individual() && self.wait == 0 && guarded,
        }
    }
}

/// Whether every record is sound and all held addresses are different.
pub(crate) fn are_sound(links: &[Link]) -> bool {
    let mut seen = Seen::default();
    links.iter().enumerate().all(|(place, link)| {
        link.is_sound()
            && (!link.is_held() || seen.is_new(link.address) || is_new(&links[..place], link))
    })
}

/// Whether no link before has this one's address.
fn is_new(before: &[Link], link: &Link) -> bool {
    before.iter().all(|other| other.address != link.address)
}

/// Marks of addresses met so far.
///
/// Every call asks whether all addresses differ, and comparing each pair of
/// 64 would be most of a tick's cost. Two addresses with different marks
/// differ; only equal marks need comparing.
#[derive(Default)]
struct Seen {
    marks: [u64; 32],
}

impl Seen {
    /// Marks an address; true if its mark is new.
    fn is_new(&mut self, address: Address) -> bool {
        // The top 11 bits of a product with an odd number near 2^64 / 1.618
        // spread neighbouring addresses over all marks.
        let mark = address.0.wrapping_mul(0x9E37_79B9_7F4A_7C15) >> 53;
        let word = &mut self.marks[(mark / 64) as usize % 32];
        let bit = 1 << (mark % 64);
        let new = *word & bit == 0;
        *word |= bit;
        new
    }
}

#[cfg(test)]
mod tests {
    use super::*;

    const A: Address = Address(0x0200_0000_0001);

    #[test]
    fn idle_links_hold_nothing() {
        assert!(Link::IDLE.is_sound());
        let named = Link {
            address: A,
            ..Link::IDLE
        };
        let running = Link {
            wait: 1,
            ..Link::IDLE
        };
        assert!(!named.is_sound() && !running.is_sound());
    }

    #[test]
    fn waiting_links_run_their_wait() {
        let waiting = |wait| Link {
            wait,
            ..Link::waiting(A)
        };
        assert!(!waiting(0).is_sound() && waiting(1).is_sound());
        assert!(waiting(3_125_000).is_sound() && !waiting(3_125_001).is_sound());
        let also_guarded = Link {
            watchdog: 1,
            ..Link::waiting(A)
        };
        assert!(!also_guarded.is_sound());
    }

    #[test]
    fn registered_links_run_watchdog_and_periodic() {
        let registered = |watchdog, periodic| Link {
            watchdog,
            periodic,
            ..Link::registered(A)
        };
        assert!(registered(62_500_000, 3_125_000).is_sound());
        assert!(!registered(62_500_001, 3_125_000).is_sound());
        assert!(!registered(62_500_000, 3_125_001).is_sound());
        assert!(!registered(0, 1).is_sound() && !registered(1, 0).is_sound());
    }

    #[test]
    fn held_addresses_differ() {
        let links: Vec<Link> = (1..=64).map(|n| Link::waiting(Address(n))).collect();
        assert!(are_sound(&links));
        let mut twice = links.clone();
        twice[63].address = Address(1);
        assert!(!are_sound(&twice));
        assert!(are_sound(&[Link::IDLE; 64]));
    }
}
