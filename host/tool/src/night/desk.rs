//! The head's desk: what boxes have told of their queues, and who waits.

use super::floor::Floor;
use super::head_client::DATA_PER_GRANT;
use super::timeline::seconds;
use crate::numbers::thousands;
use plain::QueueSets;
use std::fmt;
use std::io::{self, Write};

/// The longest queue of a REPORT, and when that was heard.
#[derive(Clone, Copy, Debug, PartialEq, Eq)]
pub(super) struct Told {
    /// In quanta.
    length: u16,
    queue: usize,
    at: u64,
}

/// What is kept of a floor.
#[derive(Clone, Copy, Debug, Default)]
struct Entry {
    last: Option<Told>,
    longest: Option<Told>,
}

/// What is known of all floors. It comes from the head's notices alone, and
/// what a floor told last holds until it tells again, gone or not.
#[derive(Clone, Debug)]
pub(super) struct Desk {
    entries: Vec<Entry>,
    /// The floor that was named last and still waits.
    named: Option<usize>,
}

/// Something to tell of a floor.
#[derive(Clone, Copy, Debug, PartialEq, Eq)]
pub(super) enum News {
    /// It is the one that waits longest now.
    WaitsLongest(usize, Told),
    /// It was, and now none waits.
    CaughtUp(usize),
}

impl Told {
    /// `None` where no queue is told of. An empty REPORT comes by itself and
    /// doesn't say that queues are empty.
    fn of(now: u64, sets: &QueueSets) -> Option<Told> {
        let mut longest: Option<Told> = None;
        for set in sets.iter() {
            for (queue, length) in set.queues() {
                let told = Told {
                    length,
                    queue,
                    at: now,
                };
                longest = Some(longest.map_or(told, |before| before.longer(told)));
            }
        }
        longest
    }

    /// The longer of the two, and this one of equals.
    fn longer(self, other: Told) -> Told {
        if other.length > self.length {
            other
        } else {
            self
        }
    }

    /// Whether it is more than the floor's next grant takes.
    fn waits(&self) -> bool {
        u32::from(self.length) > DATA_PER_GRANT
    }

    /// How much waits, and where.
    pub(super) fn queue(&self) -> String {
        let quanta = thousands(self.length.into());
        format!("{quanta} quanta in queue {}", self.queue)
    }

    pub(super) fn is_of(&self, now: u64) -> bool {
        self.at == now
    }
}

impl fmt::Display for Told {
    fn fmt(&self, f: &mut fmt::Formatter<'_>) -> fmt::Result {
        write!(f, "{} at {} s", self.queue(), seconds(self.at))
    }
}

impl Desk {
    pub(super) fn new(floors: usize) -> Desk {
        Desk {
            entries: vec![Entry::default(); floors],
            named: None,
        }
    }

    /// A floor's REPORT was heard.
    pub(super) fn hear(&mut self, now: u64, floor: usize, sets: &QueueSets) -> Option<News> {
        let told = Told::of(now, sets)?;
        let entry = &mut self.entries[floor];
        entry.last = Some(told);
        entry.longest = Some(entry.longest.map_or(told, |before| before.longer(told)));
        self.name()
    }

    /// Names the floor that waits longest, if it is another than before. One
    /// that is named stays so until its queue fits a grant or another's is twice
    /// as long: REPORTs come one after another, and queues that grow side by
    /// side would else be named by turns.
    fn name(&mut self) -> Option<News> {
        let waiting = |told: &(usize, Told)| told.1.waits();
        let before = self.named;
        let still = before.and_then(|floor| self.last_of(floor)).filter(waiting);
        let longest = self.longest_now().filter(waiting);
        let named = match (still, longest) {
            (Some(still), Some(longest)) if longest.1.length / 2 < still.1.length => Some(still),
            (_, longest) => longest,
        };
        self.named = named.map(|(floor, _)| floor);
        match (before, named) {
            (Some(before), None) => Some(News::CaughtUp(before)),
            (before, Some((floor, told))) if before != Some(floor) => {
                Some(News::WaitsLongest(floor, told))
            }
            _ => None,
        }
    }

    fn last_of(&self, floor: usize) -> Option<(usize, Told)> {
        self.entries[floor].last.map(|told| (floor, told))
    }

    /// The floor with the longest queue by what each told last; `None` where
    /// none has told.
    fn longest_now(&self) -> Option<(usize, Told)> {
        self.longest_by(|entry| entry.last)
    }

    /// The first floor of equals.
    fn longest_by(&self, told: fn(&Entry) -> Option<Told>) -> Option<(usize, Told)> {
        let entries = self.entries.iter().enumerate().rev();
        let told = entries.filter_map(|(floor, entry)| Some((floor, told(entry)?)));
        told.max_by_key(|(_, told)| told.length)
    }

    /// A line for each floor: the longest queue of its last REPORT, and the
    /// longest of the night.
    pub(super) fn write_table(&self, output: &mut impl Write, floors: &[Floor]) -> io::Result<()> {
        let (last, longest) = ("longest queue as last told", "longest queue of the night");
        writeln!(output, "\n{:>5}  {last:>41}  {longest:>41}", "floor")?;
        let told = |told: Option<Told>| told.map_or("never told".into(), |told| told.to_string());
        for (floor, entry) in floors.iter().zip(&self.entries) {
            let (last, longest) = (told(entry.last), told(entry.longest));
            writeln!(output, "{:>5}  {last:>41}  {longest:>41}", floor.number)?;
        }
        Ok(())
    }

    /// The floor that waited longest in the night, and the one that does at its
    /// end.
    pub(super) fn write_verdict(
        &self,
        output: &mut impl Write,
        floors: &[Floor],
    ) -> io::Result<()> {
        let longest = self.longest_by(|entry| entry.longest);
        let (Some((most, longest)), Some((now, last))) = (longest, self.longest_now()) else {
            return writeln!(output, "No box has told of its queues.");
        };
        let [most, now] = [most, now].map(|floor| floors[floor].number);
        match longest.waits() {
            true => writeln!(output, "Waited longest: floor {most}, {longest}."),
            false => writeln!(
                output,
                "No floor waited; the longest queue was floor {most}'s, {longest}."
            ),
        }?;
        match last.waits() {
            true => writeln!(output, "Waits longest at the end: floor {now}, {last}."),
            false => writeln!(
                output,
                "No floor waits at the end; the longest queue is floor {now}'s, {last}."
            ),
        }
    }
}

#[cfg(test)]
mod tests {
    use super::*;

    /// One set, with queue 2 alone.
    fn sets(length: u16) -> QueueSets {
        let [high, low] = length.to_be_bytes();
        QueueSets::of(1, &[0b100, high, low]).unwrap()
    }

    fn told(length: u16, at: u64) -> Told {
        let queue = 2;
        Told { length, queue, at }
    }

    #[test]
    fn a_floor_waits_if_a_grant_has_no_room_for_its_queue() {
        let mut desk = Desk::new(2);
        assert_eq!(desk.hear(5, 1, &sets(1024)), None);
        let news = News::WaitsLongest(1, told(1025, 6));
        assert_eq!(desk.hear(6, 1, &sets(1025)), Some(news));
        assert_eq!(desk.hear(7, 1, &sets(9000)), None);
        assert_eq!(desk.hear(8, 1, &sets(1024)), Some(News::CaughtUp(1)));
        assert_eq!(desk.hear(9, 0, &sets(0)), None);
        assert_eq!(desk.longest_now(), Some((1, told(1024, 8))));
        let longest = desk.longest_by(|entry| entry.longest);
        assert_eq!(longest, Some((1, told(9000, 7))));
    }

    #[test]
    fn another_is_named_when_it_has_twice_as_much_or_the_first_has_caught_up() {
        let mut desk = Desk::new(3);
        let waits = |floor, length, at| Some(News::WaitsLongest(floor, told(length, at)));
        assert_eq!(desk.hear(1, 0, &sets(3000)), waits(0, 3000, 1));
        assert_eq!(desk.hear(2, 1, &sets(5999)), None);
        assert_eq!(desk.hear(3, 1, &sets(6000)), waits(1, 6000, 3));
        assert_eq!(desk.hear(4, 2, &sets(7000)), None);
        // The next is named by what it told before.
        assert_eq!(desk.hear(5, 1, &sets(500)), waits(2, 7000, 4));
        assert_eq!(desk.hear(6, 2, &sets(500)), waits(0, 3000, 1));
        assert_eq!(desk.hear(7, 0, &sets(0)), Some(News::CaughtUp(0)));
        assert_eq!(desk.longest_now(), Some((1, told(500, 5))));
    }

    #[test]
    fn an_empty_report_says_nothing_of_queues() {
        let mut desk = Desk::new(1);
        let no_queue = QueueSets::of(2, &[0, 0]).unwrap();
        for sets in [QueueSets::NONE, no_queue] {
            assert_eq!(desk.hear(1, 0, &sets), None);
            assert_eq!(desk.longest_now(), None);
        }
        desk.hear(2, 0, &sets(2000));
        for sets in [QueueSets::NONE, no_queue] {
            assert_eq!(desk.hear(3, 0, &sets), None);
            assert_eq!(desk.longest_now(), Some((0, told(2000, 2))));
        }
    }

    #[test]
    fn the_longest_queue_of_all_sets_counts() {
        // Queues 0 and 2 with 258 and 772; queue 7 with 770.
        let octets = [0b101, 1, 2, 3, 4, 0b1000_0000, 3, 2];
        let sets = QueueSets::of(2, &octets).unwrap();
        let longest = Told::of(62_500_000, &sets).unwrap();
        assert_eq!(longest, told(772, 62_500_000));
        assert_eq!(longest.to_string(), "772 quanta in queue 2 at 1.000000 s");
        let (length, queue, at) = (65_535, 7, 3600 * 62_500_000);
        let widest = Told { length, queue, at }.to_string();
        assert_eq!(widest.len(), 41);
    }
}
