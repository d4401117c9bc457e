//! A box's queues: data frames that come at their times, wait, and go in
//! windows.

use crate::dice::Dice;
use plain::numbers::{quanta_for, TICKS_PER_SECOND};

/// Queues of a box, of the eight that a REPORT can tell of.
const QUEUES: usize = 3;
/// Octets of a queue set that tells of them all: bitmap, and two for each.
const SET_OCTETS: usize = 1 + 2 * QUEUES;

const MILLISECOND: u64 = TICKS_PER_SECOND / 1000;

/// Octets of the frames of each queue.
const FRAME_OCTETS: [usize; QUEUES] = [64, 256, 1000];
/// A frame of each comes every so many milliseconds, or up to twice as many.
const MILLISECONDS_BETWEEN: [u64; QUEUES] = [5, 20, 80];

/// What a busy floor's last queue gets besides: more than its windows take.
const RUSH: Stream = Stream {
    first: 250 * MILLISECOND,
    every: 4 * MILLISECOND,
    end: 550 * MILLISECOND,
};

/// Frames that come one by one, equally far apart.
#[derive(Clone, Copy, Debug)]
struct Stream {
    /// Tick of the first.
    first: u64,
    /// Ticks from one to the next.
    every: u64,
    /// From this tick on none comes.
    end: u64,
}

/// One queue.
#[derive(Clone, Debug)]
struct Queue {
    streams: Vec<Stream>,
    /// Quanta that a frame of it takes.
    quanta: u64,
    /// Frames that have come by the last look at it.
    come: u64,
    gone: u64,
}

/// The queues of a box.
#[derive(Clone, Debug)]
pub(super) struct Queues([Queue; QUEUES]);

/// How many frames have come, gone, and wait.
#[derive(Clone, Copy, Debug, Default, PartialEq, Eq)]
pub(super) struct Traffic {
    pub(super) come: u64,
    pub(super) gone: u64,
    pub(super) waiting: u64,
}

impl Stream {
    /// How many have come when this tick is over.
    fn come_by(&self, now: u64) -> u64 {
        let ticks = (now + 1).min(self.end).saturating_sub(self.first);
        ticks.div_ceil(self.every)
    }
}

impl Queue {
    fn waiting(&self) -> u64 {
        self.come - self.gone
    }

    /// As a REPORT tells it: 65,535 quanta may be more.
    fn length(&self) -> u16 {
        let quanta = self.waiting().saturating_mul(self.quanta);
        u16::try_from(quanta).unwrap_or(u16::MAX)
    }
}

impl Queues {
    /// Queues that fill as the dice fall, and faster for a while on a busy
    /// floor.
    pub(super) fn new(mut dice: Dice, is_busy: bool) -> Queues {
        let mut queues = std::array::from_fn(|queue| {
            let least = MILLISECONDS_BETWEEN[queue] * MILLISECOND;
            let every = least + dice.below(least);
            let stream = Stream {
                first: dice.below(every),
                every,
                end: u64::MAX,
            };
            Queue {
                streams: vec![stream],
                quanta: quanta_for(FRAME_OCTETS[queue]) as u64,
                come: 0,
                gone: 0,
            }
        });
        if is_busy {
            queues[QUEUES - 1].streams.push(RUSH);
        }
        Queues(queues)
    }

    /// What has come by now waits.
    pub(super) fn fill(&mut self, now: u64) {
        for queue in &mut self.0 {
            let come = queue.streams.iter().map(|stream| stream.come_by(now));
            queue.come = come.sum();
        }
    }

    /// Whole frames go for so many quanta, those of the lowest queue first.
    pub(super) fn drain(&mut self, quanta: u64) {
        let mut left = quanta;
        for queue in &mut self.0 {
            let frames = queue.waiting().min(left / queue.quanta);
            queue.gone += frames;
            left -= frames * queue.quanta;
        }
    }

    /// One queue set that tells of them all, as it stands in a frame.
    pub(super) fn set(&self) -> [u8; SET_OCTETS] {
        let mut set = [0; SET_OCTETS];
        set[0] = (1 << QUEUES) - 1;
        for (place, queue) in set[1..].chunks_exact_mut(2).zip(&self.0) {
            place.copy_from_slice(&queue.length().to_be_bytes());
        }
        set
    }

    /// All frames of theirs, by the last look.
    pub(super) fn traffic(&self) -> Traffic {
        self.0
            .iter()
            .fold(Traffic::default(), |sum, queue| Traffic {
                come: sum.come + queue.come,
                gone: sum.gone + queue.gone,
                waiting: sum.waiting + queue.waiting(),
            })
    }
}

#[cfg(test)]
mod tests {
    use super::*;
    use std::collections::VecDeque;

    fn stream(first: u64, every: u64, end: u64) -> Stream {
        Stream { first, every, end }
    }

    /// Queues of these streams, in the order of the queues.
    fn queues(streams: [Stream; QUEUES]) -> Queues {
        let mut queues = Queues::new(Dice::new(1), false);
        for (queue, stream) in queues.0.iter_mut().zip(streams) {
            queue.streams = vec![stream];
        }
        queues
    }

    /// The lengths that the set tells of queues 0, 1 and 2.
    fn lengths(queues: &Queues) -> [u16; QUEUES] {
        let sets = plain::QueueSets::of(1, &queues.set()).expect("one whole set");
        let set = sets.iter().next().unwrap();
        assert_eq!(set.bitmap, 0b111);
        [set.lengths[0], set.lengths[1], set.lengths[2]]
    }

    #[test]
    fn frames_come_at_their_ticks() {
        let even = stream(5, 10, u64::MAX);
        let come = [0, 4, 5, 14, 15, 25, 1_000_004, 1_000_005].map(|tick| even.come_by(tick));
        assert_eq!(come, [0, 0, 1, 1, 2, 3, 100_000, 100_001]);
        // The last of it comes at 25: at 35 it has ended.
        let ends = stream(5, 10, 35);
        assert_eq!(
            [24, 25, 35, 99].map(|tick| ends.come_by(tick)),
            [2, 3, 3, 3]
        );
        assert_eq!(stream(9, 4, 9).come_by(100), 0);
    }

    #[test]
    fn a_jump_fills_as_single_ticks_do() {
        let mut jumping = Queues::new(Dice::new(7), true);
        let mut counted = [0; QUEUES];
        for tick in 0..30_000_000 {
            for (queue, counted) in jumping.0.iter().zip(&mut counted) {
                for it in &queue.streams {
                    let comes = tick >= it.first && tick < it.end;
                    *counted += u64::from(comes && (tick - it.first).is_multiple_of(it.every));
                }
            }
        }
        jumping.fill(29_999_999);
        assert_eq!(jumping.0.each_ref().map(|queue| queue.come), counted);
        // The rush alone brings one every 4 ms from 250 to 480 ms.
        assert!(counted[2] >= 58);
    }

    /// The ticks up to `last` at which frames of a queue come, one by one.
    fn arrivals(queue: &Queue, last: u64) -> VecDeque<u64> {
        let mut ticks = Vec::new();
        for stream in &queue.streams {
            let mut tick = stream.first;
            while tick <= last && tick < stream.end {
                ticks.push(tick);
                tick += stream.every;
            }
        }
        ticks.sort_unstable();
        ticks.into()
    }

    #[test]
    fn what_came_has_gone_or_waits_frame_by_frame() {
        let mut dice = Dice::new(3);
        let mut queues = Queues::new(Dice::new(9), true);
        let last = 3 * TICKS_PER_SECOND;
        let mut singly = queues.0.each_ref().map(|queue| arrivals(queue, last));
        let came = singly.each_ref().map(VecDeque::len);
        let mut now = 0;
        while now < last {
            now = (now + dice.below(200_000)).min(last);
            let room = dice.below(3000);
            queues.fill(now);
            queues.drain(room);
            let mut left = room;
            for (queue, ticks) in queues.0.iter().zip(&mut singly) {
                while left >= queue.quanta && ticks.front().is_some_and(|&tick| tick <= now) {
                    ticks.pop_front();
                    left -= queue.quanta;
                }
                let waiting = ticks.iter().filter(|&&tick| tick <= now).count();
                assert_eq!(queue.waiting(), waiting as u64);
            }
        }
        let left = singly.each_ref().map(VecDeque::len);
        let sum = |counts: [usize; QUEUES]| counts.iter().sum::<usize>() as u64;
        let (come, waiting) = (sum(came), sum(left));
        let gone = come - waiting;
        let expected = Traffic {
            come,
            gone,
            waiting,
        };
        assert_eq!(queues.traffic(), expected);
        // At least 131 frames a second, and the rush.
        assert!(gone > 400);
    }

    #[test]
    fn lengths_are_quanta_and_the_lowest_queue_goes_first() {
        // Frames of 64, 256 and 1000 octets take 44, 140 and 512 quanta (R27).
        let every_tick = stream(0, 1, 3);
        let mut queues = queues([every_tick, every_tick, every_tick]);
        queues.fill(2);
        assert_eq!(lengths(&queues), [132, 420, 1536]);
        // Two of the first queue, and no room for one of another.
        queues.drain(131);
        assert_eq!(lengths(&queues), [44, 420, 1536]);
        // The last of it, all of the second, one of the third; 511 are left.
        queues.drain(44 + 420 + 512 + 511);
        assert_eq!(lengths(&queues), [0, 0, 1024]);
        queues.drain(5000);
        let (come, gone, waiting) = (9, 9, 0);
        assert_eq!(
            queues.traffic(),
            Traffic {
                come,
                gone,
                waiting
            }
        );
    }

    #[test]
    fn no_length_is_more_than_16_bits() {
        let long = stream(0, 1, u64::MAX);
        let mut queues = queues([long, stream(0, 1, 468), long]);
        queues.fill(1 << 40);
        // 468 frames of 140 quanta are 65,520; one more would be too much.
        assert_eq!(lengths(&queues), [65_535, 65_520, 65_535]);
        assert!(plain::QueueSets::of(1, &queues.set()).is_some());
    }
}
