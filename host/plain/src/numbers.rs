//! Numbers (R17 to R29, R244), and the sums made from them.

/// Ticks from laser on to the start of the sync time.
pub const LASER_ON: u32 = 32;
/// Ticks from the order that ends light to the transmitter's rest.
pub const LASER_OFF: u32 = 32;
/// Ticks until a registered end that hears nothing gives up (omp_timer).
pub const WATCHDOG: u32 = 62_500_000;
/// Ticks between periodic GATEs, and between periodic REPORTs.
pub const PERIOD: u32 = 3_125_000;
/// Ticks of the wait for REGISTER, and of the wait for REGISTER_ACK.
pub const WAIT: u32 = 3_125_000;
/// Furthest distance at which a grant or a window may start.
pub const FURTHEST_START: u32 = 62_500_000;
/// Longest discovery window at the head.
pub const LONGEST_WINDOW: u32 = 131_072;
/// Longest length or sync time: both are 16 bits on the wire.
pub const LONGEST: u32 = 65_535;
/// Most links that a head's table may have.
pub const MOST_LINKS: usize = 64;
/// Ticks that a control frame of 60 octets needs.
pub const CONTROL_FRAME: u32 = 42;
/// Pending grants told in a REGISTER_REQ: the room of the grant list.
pub const PENDING: u8 = 16;
/// Most ticks that one advance makes.
pub const MOST_TICKS: u32 = 65_536;
/// Ticks in one second; one tick is 16 ns.
pub const TICKS_PER_SECOND: u64 = 62_500_000;

/// Shortest grant that serves a box whose sync time is `sync`.
pub const fn needed_length(sync: u32) -> u32 {
    sync.saturating_add(LASER_ON + CONTROL_FRAME + LASER_OFF)
}

/// Quanta that a frame of `octets` octets needs: (n + 24) / 2, rounded up.
///
/// Halved before adding, so that no number of octets overflows.
pub const fn quanta_for(octets: usize) -> usize {
    octets / 2 + octets % 2 + 12
}

/// Whether a running timer is within 1 and its longest setting.
pub(crate) const fn runs(left: u32, longest: u32) -> bool {
    1 <= left && left <= longest
}

/// Ticks before the one in which the first of these timers ends; stopped ones
/// (0) end in none.
pub(crate) fn before_first_end<const N: usize>(timers: [u32; N]) -> u32 {
    timers
        .into_iter()
        .filter_map(|left| left.checked_sub(1))
        .min()
        .unwrap_or(u32::MAX)
}

/// So many ticks of a timer that runs on after them, or is stopped.
pub(crate) fn pass(left: &mut u32, ticks: u32) {
    if *left > 0 {
        *left -= ticks;
    }
}

/// One tick of a running timer; true when it has run out.
pub(crate) fn run_out(left: &mut u32) -> bool {
    *left -= 1;
    *left == 0
}

#[cfg(test)]
mod tests {
    use super::*;

    #[test]
    fn sum_5_shortest_grant_without_sync() {
        assert_eq!(needed_length(0), 106);
    }

    #[test]
    fn sum_6_no_length_serves_the_longest_sync() {
        assert!(needed_length(65_535) > LONGEST);
        assert!(needed_length(65_430) > LONGEST && needed_length(65_429) == LONGEST);
    }

    #[test]
    fn the_first_end_is_that_of_a_running_timer() {
        assert_eq!(before_first_end([0, 0]), u32::MAX);
        assert_eq!(before_first_end([0, 7, 0, 9]), 6);
        assert_eq!(before_first_end([u32::MAX, 1]), 0);
    }

    #[test]
    fn sum_7_quanta_are_rounded_up() {
        assert_eq!(quanta_for(60), 42);
        assert_eq!(quanta_for(61), 43);
        assert_eq!(quanta_for(62), 43);
        assert_eq!(quanta_for(usize::MAX), usize::MAX / 2 + 1 + 12);
    }
}
