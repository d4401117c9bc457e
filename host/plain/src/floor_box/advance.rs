//! Many ticks of the box in one call.

use super::{BoxAnswer, FloorBox};
use crate::advance::{asked, Advanced};
use crate::numbers::{before_first_end, pass, MOST_TICKS};
use crate::refusal::{require, Refusal};

impl FloorBox {
    /// So many quanta pass, 1 to 65,536, or fewer: a tick that tells or sends
    /// something is the last, and one that would be refused isn't made. Where
    /// that is the first, its refusal is the answer.
    pub fn advance(&mut self, ticks: u64) -> Result<Advanced<BoxAnswer>, Refusal> {
        require(self.is_sound(), Refusal::Unsound)?;
        let asked = asked(ticks)?;
        require(!self.opens_unasked(), Refusal::UnaskedWindow)?;
        let mut made = 0;
        let mut answer = BoxAnswer::default();
        while made < asked && answer == BoxAnswer::default() {
            let uneventful = self.uneventful().min(asked - made);
            self.pass(uneventful);
            made += uneventful;
            if made == asked || self.opens_unasked() {
                break;
            }
            answer = self.make_tick();
            made += 1;
        }
        Ok(Advanced { answer, made })
    }

    /// How many ticks from now surely are done and hand out nothing, up to
    /// 65,536: those before the one in which a timer ends, which may be silent
    /// as well. None where a grant has still to be chosen, and none of an
    /// unsound box.
    pub fn ticks_until(&self) -> u32 {
        if self.is_sound() {
            self.uneventful().min(MOST_TICKS)
        } else {
            0
        }
    }

    /// Ticks from now that only count: no timer ends, nothing is chosen.
    fn uneventful(&self) -> u32 {
        if self.has_to_choose() {
            return 0;
        }
        before_first_end([self.wait, self.watchdog, self.report, self.light.left()])
    }

    /// So many uneventful ticks.
    fn pass(&mut self, ticks: u32) {
        self.count = self.count.after(ticks);
        for timer in [&mut self.wait, &mut self.watchdog, &mut self.report] {
            pass(timer, ticks);
        }
        if let Some(left) = self.light.timer() {
            pass(left, ticks);
        }
    }
}
