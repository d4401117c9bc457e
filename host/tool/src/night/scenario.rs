//! What happens in a night beyond its routine.

use plain::numbers::TICKS_PER_SECOND;

/// A kind of night.
#[derive(Clone, Copy, Debug, PartialEq, Eq)]
pub enum Scenario {
    /// All register and stay.
    Quiet,
    /// The head drops floor 31 and its farewell is lost.
    Floor31,
    /// Much is lost on the fibre.
    Storm,
    /// Floor 31's fibre is cut and mended.
    Dark,
}

/// Something that a scenario does to floor 31.
#[derive(Clone, Copy, Debug, PartialEq, Eq)]
pub(super) enum Event {
    DropUnheard,
    Cut,
    Mend,
}

impl Scenario {
    /// Every scenario, with its name.
    pub const ALL: [(&str, Scenario); 4] = [
        ("quiet", Scenario::Quiet),
        ("floor31", Scenario::Floor31),
        ("storm", Scenario::Storm),
        ("dark", Scenario::Dark),
    ];

    /// Seconds that it needs to be told.
    pub const fn seconds(self) -> u64 {
        match self {
            Scenario::Quiet => 2,
            Scenario::Floor31 => 3,
            Scenario::Storm => 10,
            Scenario::Dark => 5,
        }
    }

    /// Frames lost of a thousand, unless asked otherwise.
    pub const fn loss(self) -> u64 {
        match self {
            Scenario::Storm => 300,
            _ => 0,
        }
    }

    /// Its events with their ticks, in order.
    pub(super) const fn events(self) -> &'static [(u64, Event)] {
        const S: u64 = TICKS_PER_SECOND;
        match self {
            Scenario::Quiet | Scenario::Storm => &[],
            Scenario::Floor31 => &[(S, Event::DropUnheard)],
            Scenario::Dark => &[(S, Event::Cut), (S * 5 / 2, Event::Mend)],
        }
    }
}
