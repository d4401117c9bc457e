//! Grants that leave the list (R126 to R128, R132): every short list of past,
//! too short, equal and serving ones, and past ones at every place of long
//! lists.

use super::{box_lines, quiet, BoxState, Count, FloorBox, Grant, GrantList};

/// Before the tick at which grants are chosen from.
const COUNT: u32 = 100;
/// 32 + sync + 42 + 32 is 116.
const SYNC: u32 = 10;

const fn grant(start: u32, length: u32) -> Grant {
    Grant {
        start: Count(start),
        length,
    }
}

const PAST: Grant = grant(COUNT, 200);

/// Past, starting at once, too short, of a length that just serves, and later.
const KINDS: [Grant; 5] = [
    PAST,
    grant(101, 116),
    grant(110, 115),
    grant(110, 116),
    grant(300, 116),
];

/// A registered box that holds these and chooses; then until the next is lit.
fn choosing(grants: &[Grant]) -> Vec<String> {
    let mut script = box_lines(&FloorBox {
        grants: GrantList::of(grants).expect("sixteen at most"),
        ..quiet(COUNT, BoxState::Registered, SYNC)
    });
    script.extend(["box tick 1", "box tick 9"].map(str::to_owned));
    script
}

/// Every list of up to four grants.
pub(super) fn of_few() -> Vec<String> {
    let with_each = |list: &Vec<Grant>| KINDS.map(|kind| [&list[..], &[kind]].concat());
    let mut script = choosing(&[]);
    let mut lists = vec![Vec::new()];
    for _ in 0..4 {
        lists = lists.iter().flat_map(with_each).collect();
        script.extend(lists.iter().flat_map(|list| choosing(list)));
    }
    script
}

/// Lists of fifteen and sixteen: past ones from one place to another, and all
/// but those.
pub(super) fn of_many() -> Vec<String> {
    let mut script = Vec::new();
    for held in [15, 16] {
        for end in 0..=held {
            for first in 0..=end {
                for inside in [true, false] {
                    let past = |place| (first..end).contains(&place) == inside;
                    let at = |place| match past(place) {
                        true => PAST,
                        false => grant(101 + place as u32, 116),
                    };
                    script.extend(choosing(&(0..held).map(at).collect::<Vec<_>>()));
                }
            }
        }
    }
    script
}
