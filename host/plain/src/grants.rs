//! Grants and the box's grant list.

use crate::clock::Count;
use crate::numbers::LONGEST;

/// A start and a length: when a box may light its laser, and for how long.
#[derive(Clone, Copy, Debug, Default, PartialEq, Eq)]
pub struct Grant {
    /// The count at which the laser goes on.
    pub start: Count,
    /// Quanta from laser on to dark.
    pub length: u32,
}

impl Grant {
    /// Whether the length fits the wire's 16 bits.
    pub const fn in_range(self) -> bool {
        self.length <= LONGEST
    }
}

/// A grant as a GATE carries it, with its force report bit.
#[derive(Clone, Copy, Debug, Default, PartialEq, Eq)]
pub struct Granted {
    /// Start and length.
    pub grant: Grant,
    /// Whether a report is forced in it.
    pub force: bool,
}

/// The box's list of grants to come, in order of arrival.
#[derive(Clone, Copy, Default)]
pub struct GrantList {
    grants: [Grant; GrantList::ROOM],
    length: usize,
}

impl GrantList {
    /// Most grants that the list holds.
    pub const ROOM: usize = 16;

    /// The empty list.
    pub fn new() -> GrantList {
        GrantList::default()
    }

    /// A list of these grants, or `None` where there are more than 16.
    pub fn of(grants: &[Grant]) -> Option<GrantList> {
        let mut list = GrantList::new();
        list.grants.get_mut(..grants.len())?.copy_from_slice(grants);
        list.length = grants.len();
        Some(list)
    }

    /// The grants in order of arrival.
    pub fn as_slice(&self) -> &[Grant] {
        &self.grants[..self.length]
    }

    /// Whether there are none.
    pub const fn is_empty(&self) -> bool {
        self.length == 0
    }

    /// Adds a grant if there is room, and tells whether there was.
    pub fn push(&mut self, grant: Grant) -> bool {
        let room = self.length < GrantList::ROOM;
        if room {
            self.grants[self.length] = grant;
            self.length += 1;
        }
        room
    }

    /// Takes out the earliest entry equal to `grant`.
    pub(crate) fn take_out(&mut self, grant: Grant) {
        if let Some(place) = self.as_slice().iter().position(|&held| held == grant) {
            self.remove(place);
        }
    }

    /// Takes out and hands back the next grant that can still be served:
    /// past grants and ones shorter than `needed` leave the list on the way.
    ///
    /// The answer stays in the list; it leaves when its laser goes on.
    pub(crate) fn choose(&mut self, now: Count, needed: u32) -> Option<(u32, Grant)> {
        self.remove_past(now);
        loop {
            let (place, ticks) = self.nearest(now)?;
            let grant = self.grants[place];
            if grant.length >= needed {
                return Some((ticks, grant));
            }
            self.remove(place);
        }
    }

    /// Place and distance of the nearest grant, the earliest of equals.
    fn nearest(&self, now: Count) -> Option<(usize, u32)> {
        let ahead = |(place, grant): (usize, &Grant)| Some((place, now.ticks_until(grant.start)?));
        self.as_slice()
            .iter()
            .enumerate()
            .filter_map(ahead)
            .min_by_key(|&(_, ticks)| ticks)
    }

    fn remove_past(&mut self, now: Count) {
        let mut kept = 0;
        for place in 0..self.length {
            if now.ticks_until(self.grants[place].start).is_some() {
                self.grants[kept] = self.grants[place];
                kept += 1;
            }
        }
        self.length = kept;
    }

    fn remove(&mut self, place: usize) {
        self.grants.copy_within(place + 1..self.length, place);
        self.length -= 1;
    }
}

// Only the grants in the list count, not what removed ones left behind.
impl PartialEq for GrantList {
    fn eq(&self, other: &GrantList) -> bool {
        self.as_slice() == other.as_slice()
    }
}

impl Eq for GrantList {}

impl std::fmt::Debug for GrantList {
    fn fmt(&self, f: &mut std::fmt::Formatter<'_>) -> std::fmt::Result {
        self.as_slice().fmt(f)
    }
}

#[cfg(test)]
mod tests {
    use super::*;

    fn grant(start: u32, length: u32) -> Grant {
        Grant {
            start: Count(start),
            length,
        }
    }

    #[test]
    fn room_for_sixteen() {
        let mut list = GrantList::new();
        for start in 0..16 {
            assert!(list.push(grant(start, 100)));
        }
        assert!(!list.push(grant(16, 100)));
        assert_eq!(list.as_slice().len(), 16);
        assert!(GrantList::of(&[grant(0, 0); 17]).is_none());
    }

    #[test]
    fn nearest_across_the_wrap_comes_first() {
        let mut list = GrantList::of(&[grant(5, 120), grant(0xFFFF_FFFF, 120)]).unwrap();
        let chosen = list.choose(Count(0xFFFF_FFF0), 106);
        assert_eq!(chosen, Some((15, grant(0xFFFF_FFFF, 120))));
        assert_eq!(list.as_slice().len(), 2);
    }

    #[test]
    fn earliest_arrival_of_equal_starts_comes_first() {
        let mut list = GrantList::of(&[grant(9, 110), grant(9, 120)]).unwrap();
        assert_eq!(list.choose(Count(0), 106), Some((9, grant(9, 110))));
    }

    #[test]
    fn past_and_short_grants_leave_the_list() {
        let held = [grant(3, 120), grant(8, 105), grant(20, 106), grant(30, 10)];
        let mut list = GrantList::of(&held).unwrap();
        assert_eq!(list.choose(Count(4), 106), Some((16, grant(20, 106))));
        assert_eq!(list.as_slice(), [grant(20, 106), grant(30, 10)]);
    }

    #[test]
    fn of_equal_entries_the_earliest_is_taken_out() {
        let mut list = GrantList::of(&[grant(1, 80), grant(2, 80), grant(1, 80)]).unwrap();
        list.take_out(grant(1, 80));
        assert_eq!(list.as_slice(), [grant(2, 80), grant(1, 80)]);
    }
}
