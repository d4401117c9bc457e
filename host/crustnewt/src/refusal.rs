//! The service card's numbers above 0.

use crate::word::sure;
use core::fmt;

/// Why a call was refused; the value is the number.
#[derive(Clone, Copy, Debug, PartialEq, Eq, Hash)]
#[repr(u8)]
pub enum Refusal {
    /// The frame isn't 60 octets.
    Size = 1,
    /// The type isn't 0x8808.
    Kind = 2,
    /// The opcode isn't 2 to 6.
    Opcode = 3,
    /// A field or an address is outside its range.
    Range = 4,
    /// The message goes the other way.
    Direction = 5,
    /// The link number isn't allowed here, is above the table, or is idle.
    Link = 6,
    /// Not in this state.
    State = 7,
    /// Not this party's address.
    Party = 8,
    /// Start, length or number of grants, or a number of ticks, is outside its
    /// range.
    Grant = 9,
    /// The address already holds a link.
    Held = 10,
    /// Every link is held.
    Full = 11,
    /// The output is shorter than 60 octets a link.
    Output = 12,
    /// Unsound state or table.
    Unsound = 13,
    /// A discovery window opens on a box that isn't REGISTERING.
    Window = 14,
    /// Not of the card: too little memory was lent.
    Short = 100,
}

impl Refusal {
    /// Every one, in order of its number.
    pub const ALL: [Refusal; 15] = [
        Refusal::Size,
        Refusal::Kind,
        Refusal::Opcode,
        Refusal::Range,
        Refusal::Direction,
        Refusal::Link,
        Refusal::State,
        Refusal::Party,
        Refusal::Grant,
        Refusal::Held,
        Refusal::Full,
        Refusal::Output,
        Refusal::Unsound,
        Refusal::Window,
        Refusal::Short,
    ];

    /// The number that the library answers.
    pub const fn number(self) -> u8 {
        self as u8
    }

    /// The refusal of this number; `None` for 0 and what is no number.
    pub fn of(number: u8) -> Option<Refusal> {
        Refusal::ALL.into_iter().find(|it| it.number() == number)
    }

    /// What the library's number says of a call.
    #[inline]
    pub(crate) fn judge(number: u8) -> Result<(), Refusal> {
        match number {
            0 => Ok(()),
            _ => Err(Refusal::sure(number)),
        }
    }

    /// The library answers no number that isn't of the card.
    #[cold]
    fn sure(number: u8) -> Refusal {
        sure(Refusal::of(number))
    }
}

impl fmt::Display for Refusal {
    fn fmt(&self, f: &mut fmt::Formatter<'_>) -> fmt::Result {
        let why = match self {
            Refusal::Size => "the frame isn't 60 octets",
            Refusal::Kind => "the type isn't 0x8808",
            Refusal::Opcode => "the opcode isn't 2 to 6",
            Refusal::Range => "a field or an address is outside its range",
            Refusal::Direction => "the message goes the other way",
            Refusal::Link => "the link number isn't allowed here, is above the table, or is idle",
            Refusal::State => "not in this state",
            Refusal::Party => "not this party's address",
            Refusal::Grant => "a grant, their number or a number of ticks is outside its range",
            Refusal::Held => "the address already holds a link",
            Refusal::Full => "every link is held",
            Refusal::Output => "the output is shorter than 60 octets a link",
            Refusal::Unsound => "unsound state or table",
            Refusal::Window => "a discovery window opens on a box that isn't REGISTERING",
            Refusal::Short => "too little memory was lent",
        };
        write!(f, "{why} ({})", self.number())
    }
}

impl core::error::Error for Refusal {}
