//! States that are measured again and again.

use std::hint::black_box;

/// A state that is set back after so many calls, so that what is measured
/// lasts.
pub struct Kept<S> {
    whole: S,
    now: S,
    calls: u32,
    made: u32,
}

impl<S: Clone> Kept<S> {
    /// Set back after `calls`.
    pub fn new(whole: S, calls: u32) -> Kept<S> {
        Kept {
            now: whole.clone(),
            whole,
            calls,
            made: 0,
        }
    }

    /// The state for the next call.
    pub fn next(&mut self) -> &mut S {
        if self.made == self.calls {
            self.now.clone_from(&self.whole);
            self.made = 0;
        }
        self.made += 1;
        black_box(&mut self.now)
    }
}
