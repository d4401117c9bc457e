//! Queue sets: what a REPORT says of a box's queues.

use crate::sys::MOST_SETS_OCTETS;

/// Octets of a REPORT's body: how many sets, the sets, and zeros (R32).
const BODY_OCTETS: usize = 1 + MOST_SETS_OCTETS;

/// Queues that a bitmap has bits for.
const QUEUES: usize = 8;

/// Words of the C face that hold a REPORT's body.
pub(crate) const SETS_WORDS: usize = 5;

/// A queue set: some of a box's queues, and how long they are.
#[derive(Clone, Copy, Debug, Default, PartialEq, Eq)]
pub struct QueueSet {
    /// Which queues it tells of: bit i is queue i's.
    pub bitmap: u8,
    /// How long each queue is. A queue that isn't in the bitmap isn't told of,
    /// and has 0 in a set that was read.
    pub lengths: [u16; QUEUES],
}

/// The queue sets of a REPORT, as many as its forty octets hold.
///
/// ```
/// use crustnewt::{QueueSet, QueueSets};
///
/// let first = QueueSet { bitmap: 0b101, lengths: [258, 0, 772, 0, 0, 0, 0, 0] };
/// let second = QueueSet { bitmap: 0, ..first };
/// let sets = QueueSets::of_sets(&[first, second]).unwrap();
/// assert!(sets.octets().starts_with(&[2, 0b101, 1, 2, 3, 4, 0, 0]));
/// assert_eq!(QueueSets::of(2, &[0b101, 1, 2, 3, 4, 0]), Some(sets));
///
/// let told: Vec<_> = sets.iter().flat_map(|set| set.queues()).collect();
/// assert_eq!(told, [(0, 258), (2, 772)]);
///
/// // Thirteen sets of one queue fill the forty octets.
/// let one = QueueSet { bitmap: 1, ..first };
/// assert!(QueueSets::of_sets(&[one; 13]).is_some());
/// assert_eq!(QueueSets::of_sets(&[one; 14]), None);
/// ```
#[derive(Clone, Copy, Debug, PartialEq, Eq)]
pub struct QueueSets([u8; BODY_OCTETS]);

impl QueueSet {
    /// The queues that it tells of, the lowest first, each with its length.
    pub fn queues(self) -> impl Iterator<Item = (usize, u16)> {
        let named = move |&queue: &usize| self.bitmap >> queue & 1 == 1;
        let queues = (0..QUEUES).filter(named);
        queues.map(move |queue| (queue, self.lengths[queue]))
    }

    /// The set that these octets begin with, and those behind it; `None` where
    /// they end before it does.
    fn first_of(octets: &[u8]) -> Option<(QueueSet, &[u8])> {
        let (&bitmap, mut rest) = octets.split_first()?;
        let mut set = QueueSet {
            bitmap,
            ..QueueSet::default()
        };
        for (queue, _) in set.queues() {
            let (length, behind) = rest.split_first_chunk()?;
            set.lengths[queue] = u16::from_be_bytes(*length);
            rest = behind;
        }
        Some((set, rest))
    }
}

impl QueueSets {
    /// No sets: an empty REPORT's.
    pub const NONE: QueueSets = QueueSets([0; BODY_OCTETS]);

    /// So many sets, of their octets as they stand in a frame behind the number;
    /// `None` unless these are exactly so many whole sets, and 39 octets at
    /// most.
    pub fn of(number: u8, sets: &[u8]) -> Option<QueueSets> {
        let mut made = QueueSets::NONE;
        made.0[0] = number;
        made.0.get_mut(1..=sets.len())?.copy_from_slice(sets);
        (made.used()? == 1 + sets.len()).then_some(made)
    }

    /// These sets; `None` where they don't fit: where 1 octet for each and 2 for
    /// each of its queues are more than 39.
    pub fn of_sets(sets: &[QueueSet]) -> Option<QueueSets> {
        let mut made = QueueSets::NONE;
        made.0[0] = u8::try_from(sets.len()).ok()?;
        let mut rest = &mut made.0[1..];
        for set in sets {
            *rest.split_off_first_mut()? = set.bitmap;
            for (_, length) in set.queues() {
                let place = rest.split_off_mut(..2)?;
                place.copy_from_slice(&length.to_be_bytes());
            }
        }
        Some(made)
    }

    /// The body of a REPORT, any forty octets: whether it is in range is the
    /// writer's to say.
    pub const fn of_octets(octets: [u8; BODY_OCTETS]) -> QueueSets {
        QueueSets(octets)
    }

    /// The REPORT's body: how many sets, the sets, and zeros.
    pub const fn octets(&self) -> [u8; BODY_OCTETS] {
        self.0
    }

    /// How many sets there are, by the first octet.
    pub const fn len(&self) -> usize {
        self.0[0] as usize
    }

    /// Whether there is none.
    pub const fn is_empty(&self) -> bool {
        self.len() == 0
    }

    /// The sets, in the order of the frame. Of octets that are out of range it
    /// gives those that stand whole in them.
    pub fn iter(&self) -> impl Iterator<Item = QueueSet> + '_ {
        let mut rest = &self.0[1..];
        (0..self.len()).map_while(move |_| {
            let (set, behind) = QueueSet::first_of(rest)?;
            rest = behind;
            Some(set)
        })
    }

    /// How many sets, and their octets. Where they are out of range (R241) it is
    /// all octets, which aren't so many sets either.
    pub(crate) fn parts(&self) -> (u8, &[u8]) {
        let used = self.used().unwrap_or(BODY_OCTETS);
        let is_padded = self.0[used..].iter().all(|&octet| octet == 0);
        let end = if is_padded { used } else { BODY_OCTETS };
        (self.0[0], &self.0[1..end])
    }

    /// The words that hold it.
    pub(crate) fn words(&self) -> [u64; SETS_WORDS] {
        let (words, _) = self.0.as_chunks();
        core::array::from_fn(|place| u64::from_be_bytes(words[place]))
    }

    /// What such words hold.
    pub(crate) fn of_words(words: [u64; SETS_WORDS]) -> QueueSets {
        let mut made = QueueSets::NONE;
        let (places, _) = made.0.as_chunks_mut();
        for (place, word) in places.iter_mut().zip(words) {
            *place = word.to_be_bytes();
        }
        made
    }

    /// Octets that the number and the sets take; `None` where the sets run past
    /// the body.
    fn used(&self) -> Option<usize> {
        let mut rest = &self.0[1..];
        for _ in 0..self.len() {
            (_, rest) = QueueSet::first_of(rest)?;
        }
        Some(BODY_OCTETS - rest.len())
    }
}
