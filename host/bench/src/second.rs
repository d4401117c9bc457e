//! A second of a head and 64 boxes, all registered.

use crate::boxes::{self, parts};
use crate::heads::{self, in_a_row, pair, PERIOD, WATCHDOG};
use crate::measure::Case;
use crustnewt::sys::MOST_TICKS;
use crustnewt::{
    Advanced, BoxParts, BoxReply, BoxState, FloorBox, Frame, Head, HeadReply, Link, Refusal,
    VecTable,
};
use std::hint::black_box;

const BOXES: usize = 64;
/// Ticks of a second.
const SECOND: u64 = 62_500_000;
/// The part of it that is made tick by tick: one in so many.
const PART: u64 = 1000;
const RUNS: usize = 5;

/// Tick by tick and without any end of a timer, proved beside plain. The table
/// shows the whole second.
pub fn cases() -> Vec<Case> {
    let heads::Pair { proved, plain } = pair(BOXES, in_a_row);
    let boxes = || (0..BOXES).map(|place| boxes::registered(in_a_row(place)));
    let proved_boxes: Vec<_> = boxes().map(|pair| pair.proved).collect();
    let plain_boxes: Vec<_> = boxes().map(|pair| pair.plain).collect();
    let case = Case::short(
        format!("a second of head and 64 boxes (1/{PART} made)"),
        move || {
            let (mut head, mut boxes) = (proved.clone(), proved_boxes.clone());
            for _ in 0..SECOND / PART {
                black_box(&head.tick());
                for floor_box in &mut boxes {
                    black_box(&floor_box.tick());
                }
            }
        },
        move || {
            let (mut head, mut boxes) = (plain.clone(), plain_boxes.clone());
            for _ in 0..SECOND / PART {
                black_box(&head.tick());
                for floor_box in &mut boxes {
                    black_box(&floor_box.tick());
                }
            }
        },
    );
    vec![case.long(RUNS, [PART as f64; 2])]
}

/// The whole second by advances, all GATEs and REPORTs heard, beside the same
/// tick by tick, of which a part is made. The table shows the whole.
pub fn advances() -> Vec<Case> {
    let case = Case::short(
        "a second of head and 64 boxes in touch",
        || World::new(PERIOD).advance(SECOND),
        || World::new(PERIOD).tick(SECOND / PART),
    );
    vec![case.long(RUNS, [1.0, PART as f64])]
}

/// Head and boxes. What an end hands out, the other hears in the same tick.
struct World {
    head: Head<VecTable>,
    boxes: Vec<FloorBox>,
    /// What the head handed out in the step at hand.
    down: Vec<Frame>,
}

impl World {
    /// Of which each GATE and each REPORT has a tick of its own; the first of
    /// all come within `period`.
    fn new(period: u32) -> World {
        let apart = period / (2 * BOXES as u32);
        let gate = |place| period - 2 * apart * place as u32;
        let links =
            (0..BOXES).map(|place| Link::registered(in_a_row(place), WATCHDOG, gate(place)));
        let boxes = (0..BOXES).map(|place| {
            let report = gate(place) - apart;
            let registered = parts(in_a_row(place), BoxState::Registered);
            FloorBox::restored(&BoxParts {
                report,
                ..registered
            })
        });
        World {
            head: heads::restored(links),
            boxes: boxes.map(|made| made.expect("it is sound")).collect(),
            down: Vec::new(),
        }
    }

    /// So many ticks, each by itself.
    fn tick(&mut self, ticks: u64) {
        for _ in 0..ticks {
            self.step(
                |head| head.tick().expect(SOUND),
                |floor_box| floor_box.tick().expect(SOUND),
            );
        }
    }

    /// The same ticks, as many at once as nobody hands out anything before the
    /// last of them.
    fn advance(&mut self, ticks: u64) {
        let mut left = ticks;
        while left > 0 {
            let ticks = (self.quiet() + 1).min(MOST_TICKS).min(left);
            self.step(
                |head| whole(head.advance(ticks), ticks),
                |floor_box| whole(floor_box.advance(ticks), ticks),
            );
            left -= ticks;
        }
    }

    /// How many ticks are sure to hand out nothing at either end.
    fn quiet(&self) -> u64 {
        let boxes = self.boxes.iter().map(FloorBox::ticks_until);
        boxes.fold(self.head.ticks_until(), u64::min)
    }

    /// A call of each end, and then each hears what it was sent.
    fn step(
        &mut self,
        of_head: impl for<'a> Fn(&'a mut Head<VecTable>) -> HeadReply<'a>,
        of_box: impl for<'a> Fn(&'a mut FloorBox) -> BoxReply<'a>,
    ) {
        let World { head, boxes, down } = self;
        down.clear();
        down.extend_from_slice(of_head(head).frames());
        for (place, floor_box) in boxes.iter_mut().enumerate() {
            for report in of_box(floor_box).frames() {
                head.hear(place + 1, report).expect(SOUND);
            }
        }
        for gate in down {
            let floor_box = boxes.iter_mut().find(|it| gate[..6] == address(it));
            let floor_box = floor_box.expect("it is a box's");
            floor_box.hear(gate, 0).expect(SOUND);
        }
    }
}

const SOUND: &str = "nobody is refused";

/// The reply of an advance that was made whole.
fn whole<R>(advanced: Result<Advanced<R>, Refusal>, ticks: u64) -> R {
    let Advanced { reply, made } = advanced.expect(SOUND);
    assert_eq!(made, ticks, "nothing was to be handed out before");
    reply
}

/// A box's address, as frames have it.
fn address(floor_box: &FloorBox) -> [u8; 6] {
    let [_, _, octets @ ..] = floor_box.words()[0].to_be_bytes();
    octets
}

#[cfg(test)]
mod tests {
    use super::*;
    use crustnewt::Table;

    #[test]
    fn advances_and_ticks_come_to_the_same() {
        // Every GATE and every REPORT comes once.
        const SHORT: u32 = 20_000;
        let (mut by_ticks, mut by_advances) = (World::new(SHORT), World::new(SHORT));
        by_ticks.tick(SHORT.into());
        by_advances.advance(SHORT.into());
        assert_eq!(by_ticks.head.words(), by_advances.head.words());
        let [ticked, advanced] = [&by_ticks, &by_advances].map(|it| it.head.table().words());
        assert_eq!(ticked, advanced);
        assert_eq!(by_ticks.boxes, by_advances.boxes);
        let is_heard = |watchdog| watchdog > 62_500_000 - SHORT;
        assert!(by_ticks.head.links().all(|link| is_heard(link.watchdog)));
        let mut boxes = by_ticks.boxes.iter().map(|it| it.parts().watchdog);
        assert!(boxes.all(is_heard));
    }
}
