//! The fibre: frames on their way, and what is lost.

use crate::dice::Dice;
use plain::Frame;
use std::collections::VecDeque;

/// A frame on its way.
#[derive(Clone, Copy, Debug)]
pub(super) struct Sent {
    /// Tick at which it arrives.
    pub(super) arrives: u64,
    /// Index of the floor that it goes to or comes from.
    pub(super) floor: usize,
    /// Link number that it is tagged with, on its way up.
    pub(super) link: u64,
    pub(super) frame: Frame,
}

/// Frames on their way down and up. All take as long, so each queue is in
/// order of arrival.
pub(super) struct Fibre {
    delay: u64,
    loss: u64,
    dice: Dice,
    pub(super) lost: u64,
    down: VecDeque<Sent>,
    up: VecDeque<Sent>,
}

impl Fibre {
    pub(super) fn new(delay: u64, loss: u64, dice: Dice) -> Fibre {
        Fibre {
            delay,
            loss,
            dice,
            lost: 0,
            down: VecDeque::new(),
            up: VecDeque::new(),
        }
    }

    /// Sends a frame down to a floor; false if it is lost.
    pub(super) fn send_down(&mut self, now: u64, floor: usize, frame: Frame, cut: bool) -> bool {
        let sent = self.survives(cut).then_some(Sent {
            arrives: now + self.delay,
            floor,
            link: 0,
            frame,
        });
        self.down.extend(sent);
        sent.is_some()
    }

    /// Sends a frame up from a floor; false if it is lost.
    pub(super) fn send_up(&mut self, now: u64, sent: Sent, cut: bool) -> bool {
        let arrives = now + self.delay;
        let survives = self.survives(cut);
        if survives {
            self.up.push_back(Sent { arrives, ..sent });
        }
        survives
    }

    /// The next frame that has come down by now.
    pub(super) fn arrived_down(&mut self, now: u64) -> Option<Sent> {
        arrived(&mut self.down, now)
    }

    /// The next frame that has come up by now.
    pub(super) fn arrived_up(&mut self, now: u64) -> Option<Sent> {
        arrived(&mut self.up, now)
    }

    /// The tick of the next arrival.
    pub(super) fn next_arrival(&self) -> u64 {
        let next = |queue: &VecDeque<Sent>| queue.front().map_or(u64::MAX, |sent| sent.arrives);
        next(&self.down).min(next(&self.up))
    }

    fn survives(&mut self, cut: bool) -> bool {
        // The dice are thrown for cut fibres too, so that a cut changes
        // nothing for the other floors.
        let survives = !self.dice.chance(self.loss) && !cut;
        self.lost += u64::from(!survives);
        survives
    }
}

fn arrived(queue: &mut VecDeque<Sent>, now: u64) -> Option<Sent> {
    let due = queue.front().is_some_and(|sent| sent.arrives <= now);
    due.then(|| queue.pop_front()).flatten()
}
