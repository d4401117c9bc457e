//! What makes a box sound (R80 to R88), and the one tick it may not make
//! (R113).

use super::{BoxState, FloorBox};
use crate::grants::Grant;
use crate::light::Light;
use crate::numbers::{runs, LONGEST, PERIOD, WAIT, WATCHDOG};

impl FloorBox {
    /// Whether every call may rest on this state.
    pub fn is_sound(&self) -> bool {
        self.address.is_individual()
            && self.sync <= LONGEST
            && self.timers_are_sound()
            && self.grants_are_sound()
            && (self.state != BoxState::Wait || self.light == Light::Rest)
            && self.light.is_sound(&self.grants)
    }

    /// Each state runs its own timers and no others.
    fn timers_are_sound(&self) -> bool {
        let waits = runs(self.wait, WAIT);
        let guarded = runs(self.watchdog, WATCHDOG) && runs(self.report, PERIOD);
        let unguarded = self.watchdog == 0 && self.report == 0;
        match self.state {
            BoxState::Wait | BoxState::Registering => self.wait == 0 && unguarded,
            BoxState::Requesting => waits && unguarded,
            BoxState::Registered => self.wait == 0 && guarded,
        }
    }

    fn grants_are_sound(&self) -> bool {
        match self.state {
            BoxState::Registered => self.grants.as_slice().iter().all(|g| Grant::in_range(*g)),
            _ => self.grants.is_empty(),
        }
    }

    /// Whether the coming tick would open a discovery window while the state,
    /// after that tick's registration timer, isn't REGISTERING (14).
    ///
    /// Foreseen rather than undone, so that a refused tick changes nothing:
    /// a wait that runs out leads back to REGISTERING, and a watchdog that
    /// runs out darkens the laser before the window opens.
    pub(super) fn opens_unasked(&self) -> bool {
        let opens = matches!(self.light, Light::Warming { left: 1 });
        opens
            && match self.state {
                BoxState::Registering => false,
                BoxState::Requesting => self.wait != 1,
                BoxState::Registered => self.watchdog != 1,
                // Unsound with the laser on, so never asked.
                BoxState::Wait => true,
            }
    }
}
