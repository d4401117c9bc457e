//! The queue sets of a REPORT (R32, R41, R239 to R241).

/// The body of a REPORT: the number of its queue sets, the sets, and zeros.
///
/// Forty octets of any kind can be handed in; those whose sets run past them,
/// or that aren't zero behind the last set, are out of range.
#[derive(Clone, Copy, Debug, PartialEq, Eq)]
pub struct QueueSets([u8; QueueSets::OCTETS]);

/// One queue set.
#[derive(Clone, Copy, Debug, Default, PartialEq, Eq)]
pub struct QueueSet {
    /// Bit i is set where the set has queue i.
    pub bitmap: u8,
    /// Length of queue i at place i, 0 where the set doesn't have it.
    pub lengths: [u16; 8],
}

impl QueueSets {
    /// Octets of the body, the number among them.
    pub const OCTETS: usize = 40;
    /// No sets.
    pub const NONE: QueueSets = QueueSets([0; QueueSets::OCTETS]);

    /// So many sets, which are exactly these octets; `None` where they aren't,
    /// or have no room.
    pub fn of(number: u8, sets: &[u8]) -> Option<QueueSets> {
        if octets_of(number, sets)? < sets.len() {
            return None;
        }
        QueueSets::holding(number, sets)
    }

    /// So many sets from the beginning of these octets, whatever follows them
    /// (R36); `None` where they run past the last.
    pub(crate) fn leading(number: u8, octets: &[u8]) -> Option<QueueSets> {
        let taken = octets_of(number, octets)?;
        QueueSets::holding(number, &octets[..taken])
    }

    /// These forty octets, in range or not.
    pub const fn of_octets(octets: [u8; QueueSets::OCTETS]) -> QueueSets {
        QueueSets(octets)
    }

    /// The forty octets.
    pub const fn octets(&self) -> [u8; QueueSets::OCTETS] {
        self.0
    }

    /// Whether all sets are there, with zeros behind them.
    pub fn in_range(&self) -> bool {
        let [number, rest @ ..] = &self.0;
        let zeros = &QueueSets::NONE.0[1..];
        let is_padded = |taken: usize| rest[taken..] == zeros[taken..];
        // Most REPORTs are empty, and this tells so at once.
        *self == QueueSets::NONE || octets_of(*number, rest).is_some_and(is_padded)
    }

    /// The number of sets, as the first octet tells it.
    pub const fn number(&self) -> u8 {
        self.0[0]
    }

    /// The sets in order, up to one that isn't all there.
    pub fn iter(&self) -> impl Iterator<Item = QueueSet> + '_ {
        let [number, rest @ ..] = &self.0;
        let mut rest = rest.as_slice();
        (0..*number).map_while(move |_| {
            let (set, after) = QueueSet::split_from(rest)?;
            rest = after;
            Some(set)
        })
    }

    /// A body of this number and these octets; `None` where there is no room.
    fn holding(number: u8, sets: &[u8]) -> Option<QueueSets> {
        let mut body = [0; QueueSets::OCTETS];
        body[0] = number;
        body[1..].get_mut(..sets.len())?.copy_from_slice(sets);
        Some(QueueSets(body))
    }
}

impl QueueSet {
    /// The queues of the set and their lengths, the lowest queue first.
    pub fn queues(&self) -> impl Iterator<Item = (usize, u16)> + '_ {
        let lengths = self.lengths.iter().copied().enumerate();
        lengths.filter(|&(queue, _)| self.bitmap >> queue & 1 == 1)
    }

    /// The set that these octets begin with, and the octets behind it.
    fn split_from(octets: &[u8]) -> Option<(QueueSet, &[u8])> {
        let (&bitmap, mut rest) = octets.split_first()?;
        let mut lengths = [0; 8];
        for (queue, length) in lengths.iter_mut().enumerate() {
            if bitmap >> queue & 1 == 1 {
                let (&octets, after) = rest.split_first_chunk()?;
                *length = u16::from_be_bytes(octets);
                rest = after;
            }
        }
        Some((QueueSet { bitmap, lengths }, rest))
    }
}

/// How many of these octets so many sets take (R240); `None` where they run
/// past the last.
fn octets_of(number: u8, octets: &[u8]) -> Option<usize> {
    let mut taken = 0;
    for _ in 0..number {
        let queues = octets.get(taken)?.count_ones();
        taken += 1 + 2 * queues as usize;
    }
    (taken <= octets.len()).then_some(taken)
}
