//! Queue sets, told wrongly.

use plain::{QueueSet, QueueSets};

/// The octets that the number and the sets take.
fn taken(sets: &QueueSets) -> usize {
    let taken = |set: QueueSet| 1 + 2 * set.bitmap.count_ones() as usize;
    1 + sets.iter().map(taken).sum::<usize>()
}

/// The sets with the lengths of each turned around.
pub fn highest_first(sets: &QueueSets) -> QueueSets {
    let mut octets = sets.octets();
    let mut rest = &mut octets[1..];
    for set in sets.iter() {
        let (lengths, behind) = rest[1..].split_at_mut(2 * set.bitmap.count_ones() as usize);
        lengths.as_chunks_mut::<2>().0.reverse();
        rest = behind;
    }
    QueueSets::of_octets(octets)
}

/// The sets with zeros behind them.
pub fn zeroed(sets: &QueueSets) -> QueueSets {
    let mut octets = sets.octets();
    octets[taken(sets)..].fill(0);
    QueueSets::of_octets(octets)
}
