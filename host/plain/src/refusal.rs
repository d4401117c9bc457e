//! The reply numbers above 0.

/// Why a call was refused; the value is the reply number (R53 to R66).
#[derive(Clone, Copy, Debug, PartialEq, Eq)]
#[repr(u8)]
pub enum Refusal {
    /// The frame isn't 60 octets.
    NotSixtyOctets = 1,
    /// The type isn't 0x8808.
    NotControl = 2,
    /// The opcode isn't 2 to 6.
    UnknownOpcode = 3,
    /// An address or a field is out of range.
    OutOfRange = 4,
    /// This end sends such messages and hears none.
    WrongWay = 5,
    /// The table has no such link, it is idle, or the number isn't for this call.
    NoSuchLink = 6,
    /// The state isn't the one for it.
    NotNow = 7,
    /// The address is another party's.
    NotMine = 8,
    /// A start, a length, a number of grants or of ticks is outside its bounds.
    BadGrant = 9,
    /// A link is held for this address already.
    AlreadyHeld = 10,
    /// No link is idle.
    TableFull = 11,
    /// The output has fewer than 60 octets for each link.
    ShortOutput = 12,
    /// State or table is unsound.
    Unsound = 13,
    /// The box would ask to register without being REGISTERING.
    UnaskedWindow = 14,
}

impl Refusal {
    /// The reply number.
    pub const fn number(self) -> u8 {
        self as u8
    }
}

/// Refuses with `refusal` unless `holds`.
pub(crate) fn require(holds: bool, refusal: Refusal) -> Result<(), Refusal> {
    if holds {
        Ok(())
    } else {
        Err(refusal)
    }
}
