//! The 32-bit counter (R6 to R11).

use crate::numbers::FURTHEST_START;

/// A reading of the 32-bit counter.
#[derive(Clone, Copy, Debug, Default, PartialEq, Eq)]
pub struct Count(pub u32);

impl Count {
    /// The count one tick later.
    #[must_use]
    pub const fn next(self) -> Count {
        self.after(1)
    }

    /// The count so many ticks later.
    #[must_use]
    pub const fn after(self, ticks: u32) -> Count {
        Count(self.0.wrapping_add(ticks))
    }

    /// The distance from this count to `other`, in -2^31 .. 2^31 - 1.
    ///
    /// The difference is taken modulo 2^32 and read as a signed number, so
    /// it is right across the wrap.
    pub const fn distance_to(self, other: Count) -> i32 {
        other.0.wrapping_sub(self.0) as i32
    }

    /// Quanta since `stamp`, modulo 2^32: the head's round trip.
    pub const fn round_trip(self, stamp: Count) -> u32 {
        self.0.wrapping_sub(stamp.0)
    }

    /// Ticks until `start`, or `None` where it is past.
    pub fn ticks_until(self, start: Count) -> Option<u32> {
        u32::try_from(self.distance_to(start)).ok()
    }

    /// Ticks until `start`, or `None` where it is past or too far to grant.
    pub fn ticks_until_grant(self, start: Count) -> Option<u32> {
        self.ticks_until(start)
            .filter(|&ticks| ticks <= FURTHEST_START)
    }
}

#[cfg(test)]
mod tests {
    use super::*;

    #[test]
    fn sum_1_distance_across_the_wrap() {
        assert_eq!(Count(0xFFFF_FFFB).distance_to(Count(5)), 10);
        assert_eq!(Count(5).distance_to(Count(0xFFFF_FFFB)), -10);
    }

    #[test]
    fn sum_2_half_way_round_is_past() {
        assert_eq!(Count(0).distance_to(Count(0x8000_0000)), i32::MIN);
        assert_eq!(Count(0).ticks_until(Count(0x8000_0000)), None);
        assert_eq!(
            Count(0).ticks_until(Count(0x7FFF_FFFF)),
            Some(2_147_483_647)
        );
    }

    #[test]
    fn sum_3_equal_counts_are_not_past() {
        assert_eq!(Count(7).distance_to(Count(7)), 0);
        assert_eq!(Count(7).ticks_until(Count(7)), Some(0));
    }

    #[test]
    fn sum_4_round_trip_across_the_wrap() {
        assert_eq!(Count(3).round_trip(Count(0xFFFF_FFF0)), 19);
    }

    #[test]
    fn sum_10_furthest_start() {
        let now = Count(0xFFFF_0000);
        let at = |ticks: u32| Count(now.0.wrapping_add(ticks));
        assert_eq!(now.ticks_until_grant(at(62_500_000)), Some(62_500_000));
        assert_eq!(now.ticks_until_grant(at(62_500_001)), None);
        assert_eq!(now.ticks_until_grant(Count(0xFFFE_FFFF)), None);
    }

    #[test]
    fn the_counter_wraps() {
        assert_eq!(Count(u32::MAX).next(), Count(0));
    }
}
