//! Calls on a box in a state handed in.

use super::messages::{frame_for, For};
use super::queue_sets;
use super::states::{any_box, box_lines};
use super::values::{address, ticks_ahead, HEAD};
use crustnewt_tool::dice::Dice;
use crustnewt_tool::replay::hex;
use plain::FloorBox;

pub(crate) fn script(dice: &mut Dice) -> Vec<String> {
    let mut script = vec![format!("box new {}", address(dice))];
    let states = 1 + dice.below(4);
    for _ in 0..states {
        let floor_box = any_box(dice);
        script.extend(box_lines(&floor_box));
        for _ in 0..2 {
            script.extend(advance_and_back(dice, &floor_box));
        }
        let window = floor_box.light.window();
        if window > 0 {
            script.push(next(dice, window));
        }
        let calls = 1 + dice.below(6);
        for _ in 0..calls {
            script.push(call(dice, &floor_box));
        }
    }
    script
}

fn call(dice: &mut Dice, floor_box: &FloorBox) -> String {
    let now = floor_box.count;
    match dice.below(14) {
        0 => "box register".to_owned(),
        1 => "box deregister".to_owned(),
        2 | 3 => next(dice, floor_box.light.window()),
        4..=6 => format!("box tick {}", ticks(dice)),
        7 => advance(dice, floor_box),
        8 => queue_sets::line(&queue_sets::asked(dice)),
        _ => {
            let random = dice.pick(&[0, 1, 68, 69, 101, 250, u32::MAX, now.0]);
            let frame = frame_for(dice, For::Box, now, HEAD);
            format!("box hear {random} {}", hex(&frame))
        }
    }
}

/// Advances a box that holds this, and sets it back.
pub(crate) fn advance_and_back(dice: &mut Dice, floor_box: &FloorBox) -> Vec<String> {
    let advance = advance(dice, floor_box);
    [advance].into_iter().chain(box_lines(floor_box)).collect()
}

/// By about as much as a timer runs or a grant is away.
fn advance(dice: &mut Dice, floor_box: &FloorBox) -> String {
    let FloorBox {
        wait,
        watchdog,
        report,
        light,
        ..
    } = *floor_box;
    let mut ends = vec![wait, watchdog, report, light.left()];
    let starts = floor_box.grants.as_slice().iter().map(|grant| grant.start);
    ends.extend(starts.filter_map(|start| floor_box.count.ticks_until(start)));
    format!("box advance {}", ticks_ahead(dice, &ends))
}

/// Numbers of ticks at which phases begin and end.
pub(crate) fn ticks(dice: &mut Dice) -> u64 {
    match dice.below(3) {
        0 => 1,
        1 => dice.pick(&[0, 2, 31, 32, 33, 41, 42, 43, 74, 106]),
        _ => dice.below(700),
    }
}

/// Frames about as long as a window of so many ticks can take: n octets need
/// (n + 24) / 2 of them.
pub(crate) fn next(dice: &mut Dice, window: u32) -> String {
    let fitting = u64::from((2 * window.min(1000)).max(24) - 24);
    let octets = |dice: &mut Dice| match dice.below(6) {
        0 | 1 => 0,
        2 => 60,
        3 => dice.below(2001),
        _ => (fitting + dice.below(5)).saturating_sub(2).min(2000),
    };
    format!("box next {} {}", octets(dice), octets(dice))
}
