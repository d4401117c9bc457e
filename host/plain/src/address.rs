//! Addresses of 48 bits.

use std::fmt;

/// An address as a number, the first octet the most significant.
///
/// A number of 2^48 or more can be handed in and is out of range.
#[derive(Clone, Copy, Debug, Default, PartialEq, Eq, Hash)]
pub struct Address(pub u64);

impl Address {
    /// No address: held by idle links and refused fresh states.
    pub const ZERO: Address = Address(0);
    /// 01-80-C2-00-00-01, to which discovery GATEs and all frames of boxes go.
    pub const EVERYONE: Address = Address(0x0180_C200_0001);
    /// The lowest bit of the first octet marks a group.
    const GROUP: u64 = 1 << 40;

    /// Whether the number has no more than 48 bits.
    pub const fn in_range(self) -> bool {
        self.0 < 1 << 48
    }

    /// Whether a party may hold it: in range, individual and nonzero.
    pub const fn is_individual(self) -> bool {
        self.in_range() && self.0 & Address::GROUP == 0 && self.0 != 0
    }

    /// The address that six octets hold.
    pub(crate) fn from_octets(octets: [u8; 6]) -> Address {
        let [a, b, c, d, e, f] = octets;
        Address(u64::from_be_bytes([0, 0, a, b, c, d, e, f]))
    }

    /// The six octets; bits above the 48th are left out.
    pub(crate) fn octets(self) -> [u8; 6] {
        let [_, _, a, b, c, d, e, f] = self.0.to_be_bytes();
        [a, b, c, d, e, f]
    }
}

impl fmt::Display for Address {
    fn fmt(&self, f: &mut fmt::Formatter<'_>) -> fmt::Result {
        write!(f, "{:012x}", self.0)
    }
}

#[cfg(test)]
mod tests {
    use super::*;

    #[test]
    fn groups_zero_and_wide_numbers_are_no_party() {
        assert!(Address(0x0200_0000_0001).is_individual());
        assert!(Address(0xFEFF_FFFF_FFFF).is_individual());
        assert!(!Address::EVERYONE.is_individual());
        assert!(!Address::ZERO.is_individual());
        assert!(!Address(1 << 48 | 2).is_individual());
        assert!(Address::EVERYONE.in_range());
    }

    #[test]
    fn octets_are_most_significant_first() {
        assert_eq!(Address::EVERYONE.octets(), [1, 0x80, 0xC2, 0, 0, 1]);
        assert_eq!(
            Address::from_octets([1, 0x80, 0xC2, 0, 0, 1]),
            Address::EVERYONE
        );
        assert_eq!(Address::EVERYONE.to_string(), "0180c2000001");
    }
}
