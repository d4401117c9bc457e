//! Scripts made from a seed.

mod box_case;
pub(crate) mod fixed;
mod head_case;
mod joint_case;
pub(crate) mod messages;
pub(crate) mod queue_sets;
pub(crate) mod states;
pub(crate) mod values;

use crustnewt_tool::dice::Dice;
use crustnewt_tool::replay::hex;

/// The script of this seed. Eight seeds in a row are of all kinds.
pub fn script(seed: u64) -> Vec<String> {
    let mut dice = Dice::new(seed);
    match seed % 8 {
        0 => reading(&mut dice),
        1..=3 => box_case::script(&mut dice),
        4 | 5 => head_case::script(&mut dice),
        _ => joint_case::script(&mut dice),
    }
}

/// Frames of every kind, whole and damaged.
fn reading(dice: &mut Dice) -> Vec<String> {
    let lines = 1 + dice.below(20);
    (0..lines)
        .map(|_| format!("read {}", hex(&messages::any_frame(dice))))
        .collect()
}
