//! What a box holds, and the words that hold it.

use crate::message::Grant;
use crate::sys::BOX_WORDS;
use crate::up_to::UpTo;
use crate::word::fit;

/// Everything that a box holds.
#[derive(Clone, Debug, PartialEq, Eq)]
pub struct BoxParts {
    /// Its own address.
    pub address: u64,
    /// Its counter.
    pub count: u32,
    /// State of its Discovery process.
    pub state: BoxState,
    /// Ticks left of the wait for REGISTER, 0 when stopped.
    pub wait: u32,
    /// Ticks left of the watchdog, 0 when stopped.
    pub watchdog: u32,
    /// Ticks left until a periodic REPORT, 0 when stopped.
    pub report: u32,
    /// Port last assigned.
    pub port: u16,
    /// Sync time last assigned.
    pub sync: u32,
    /// The transmitter.
    pub light: Light,
    /// Grants to come, in order of arrival.
    pub grants: UpTo<Grant, MOST_GRANTS>,
}

/// State of the box's Discovery process.
#[derive(Clone, Copy, Debug, PartialEq, Eq)]
pub enum BoxState {
    /// WAIT: not registered and not asked to be.
    Wait = 0,
    /// REGISTERING: waits for a discovery window.
    Registering = 1,
    /// REGISTER_REQ: has asked, waits for REGISTER.
    Requesting = 2,
    /// REGISTERED.
    Registered = 3,
}

/// What the transmitter does; `left` is the ticks left of it.
#[derive(Clone, Copy, Debug, PartialEq, Eq)]
pub enum Light {
    /// Dark, with nothing chosen.
    Rest,
    /// Dark until a discovery grant's start.
    Before {
        /// Ticks left.
        left: u32,
        /// The random wait to come.
        random: u32,
        /// The discovery GATE's sync time.
        sync: u32,
    },
    /// Dark in the random wait after a discovery grant's start.
    Random {
        /// Ticks left.
        left: u32,
        /// The discovery GATE's sync time.
        sync: u32,
    },
    /// Laser on before a discovery window.
    Warming {
        /// Ticks left.
        left: u32,
    },
    /// Transmission enabled in a discovery window.
    Asking {
        /// Ticks left.
        left: u32,
    },
    /// Dark until a normal grant's start; the grant is still in the list.
    Due {
        /// Ticks left.
        left: u32,
        /// The grant waited for.
        grant: Grant,
        /// The sync time held when it was chosen.
        sync: u32,
    },
    /// Laser on before a normal grant's window.
    Lit {
        /// Ticks left.
        left: u32,
        /// The grant's length.
        length: u32,
        /// The sync time held when it was chosen.
        sync: u32,
    },
    /// Transmission enabled in a normal grant.
    Open {
        /// Ticks left.
        left: u32,
    },
    /// Laser ordered off behind either window, and not yet dark.
    Fading {
        /// Ticks left.
        left: u32,
    },
}

const ADDRESS: usize = 0;
pub(super) const COUNT: usize = 1;
pub(super) const STATE: usize = 2;
const WAIT: usize = 3;
const WATCHDOG: usize = 4;
const REPORT: usize = 5;
const PORT: usize = 6;
const SYNC: usize = 7;
/// Phase, timer, grant and sync of the transmitter.
const LIGHT: usize = 8;
const GRANTS: usize = 12;
const LIST: usize = 13;
const MOST_GRANTS: usize = BOX_WORDS - LIST;

impl BoxParts {
    /// What these words hold; `None` unless they are the very
    /// [`words`](BoxParts::words) of some parts. Whether the box is sound is
    /// for the library to say.
    pub fn of_words(words: &[u64; BOX_WORDS]) -> Option<BoxParts> {
        let list = core::array::from_fn(|place| Grant::of_word(words[LIST + place]));
        let [phase, left, grant, sync] = core::array::from_fn(|place| words[LIGHT + place]);
        let parts = BoxParts {
            address: words[ADDRESS],
            count: fit(words[COUNT])?,
            state: BoxState::of_word(words[STATE])?,
            wait: fit(words[WAIT])?,
            watchdog: fit(words[WATCHDOG])?,
            report: fit(words[REPORT])?,
            port: fit(words[PORT])?,
            sync: fit(words[SYNC])?,
            light: Light::of_words(phase, fit(left)?, grant, fit(sync)?)?,
            grants: UpTo::first(fit(words[GRANTS])?, list)?,
        };
        (parts.words() == *words).then_some(parts)
    }

    /// The words that hold it.
    pub fn words(&self) -> [u64; BOX_WORDS] {
        let mut words = [0; BOX_WORDS];
        words[ADDRESS] = self.address;
        words[COUNT] = self.count.into();
        words[STATE] = self.state as u64;
        words[WAIT] = self.wait.into();
        words[WATCHDOG] = self.watchdog.into();
        words[REPORT] = self.report.into();
        words[PORT] = self.port.into();
        words[SYNC] = self.sync.into();
        words[LIGHT..GRANTS].copy_from_slice(&self.light.words());
        words[GRANTS] = self.grants.len() as u64;
        for (word, grant) in words[LIST..].iter_mut().zip(&*self.grants) {
            *word = grant.word();
        }
        words
    }
}

impl BoxState {
    #[inline]
    pub(super) fn of_word(word: u64) -> Option<BoxState> {
        Some(match word {
            0 => BoxState::Wait,
            1 => BoxState::Registering,
            2 => BoxState::Requesting,
            3 => BoxState::Registered,
            _ => return None,
        })
    }
}

impl Light {
    /// Ticks left of what the transmitter does, 0 at rest.
    pub fn left(&self) -> u32 {
        match *self {
            Light::Rest => 0,
            Light::Before { left, .. }
            | Light::Random { left, .. }
            | Light::Warming { left }
            | Light::Asking { left }
            | Light::Due { left, .. }
            | Light::Lit { left, .. }
            | Light::Open { left }
            | Light::Fading { left } => left,
        }
    }

    /// Whether the laser is ordered on: before and in a window, and not while
    /// it fades.
    pub fn is_on(&self) -> bool {
        matches!(
            self,
            Light::Warming { .. } | Light::Asking { .. } | Light::Lit { .. } | Light::Open { .. }
        )
    }

    /// What a phase doesn't hold is left to [`BoxParts::of_words`].
    fn of_words(phase: u64, left: u32, grant: u64, sync: u32) -> Option<Light> {
        Some(match phase {
            0 => Light::Rest,
            1 => {
                let random = fit(grant)?;
                Light::Before { left, random, sync }
            }
            2 => Light::Random { left, sync },
            3 => Light::Warming { left },
            4 => Light::Asking { left },
            5 => {
                let grant = Grant::of_word(grant);
                Light::Due { left, grant, sync }
            }
            6 => {
                let length = fit(grant)?;
                Light::Lit { left, length, sync }
            }
            7 => Light::Open { left },
            8 => Light::Fading { left },
            _ => return None,
        })
    }

    fn words(&self) -> [u64; 4] {
        let words =
            |phase, left: u32, grant: u64, sync: u32| [phase, left.into(), grant, sync.into()];
        match *self {
            Light::Rest => words(0, 0, 0, 0),
            Light::Before { left, random, sync } => words(1, left, random.into(), sync),
            Light::Random { left, sync } => words(2, left, 0, sync),
            Light::Warming { left } => words(3, left, 0, 0),
            Light::Asking { left } => words(4, left, 0, 0),
            Light::Due { left, grant, sync } => words(5, left, grant.word(), sync),
            Light::Lit { left, length, sync } => words(6, left, length.into(), sync),
            Light::Open { left } => words(7, left, 0, 0),
            Light::Fading { left } => words(8, left, 0, 0),
        }
    }
}
