//! Advances from every state, by every number at which something changes; and
//! the ones that the rule's own table works out.

use super::{box_lines, boxes, head_line, head_with, link_in, link_line, windows, LINK_STATES};
use super::{Count, Head, Light, Link, LinkState, Window, HEAD, OTHER};

/// Numbers around the range, and as wide as can be asked for.
const WIDE: [u64; 6] = [0, 65_535, 65_536, 65_537, (1 << 32) + 1, u64::MAX];

/// Every state with every phase, by each timer and one less and more.
pub(super) fn of_boxes() -> Vec<String> {
    let timers = [1, 9, 50, 60, 70];
    let near = timers.iter().flat_map(|left| left - 1..=left + 1);
    let ahead: Vec<u64> = near.chain(WIDE).collect();
    let mut script = Vec::new();
    for left in [1, 9] {
        for floor_box in boxes(left) {
            let idle = floor_box.light == Light::Rest && floor_box.watchdog == 0;
            // Where no timer runs, all numbers are alike but the wide ones.
            let ahead = if idle { &WIDE } else { &ahead[..] };
            for ticks in ahead {
                script.extend(box_lines(&floor_box));
                script.push(format!("box advance {ticks}"));
            }
        }
    }
    script
}

/// Every window with every pair of links, by each timer and one less and more;
/// with an output that is long enough, and with one that isn't.
pub(super) fn of_heads() -> Vec<String> {
    let timers = [1, 9, 39, 40, 50, 60];
    let near = timers.iter().flat_map(|left| left - 1..=left + 1);
    let ahead: Vec<u64> = near.chain(WIDE).collect();
    let mut script = vec![format!("head new 2 {HEAD}")];
    for output in [119, 120] {
        script.push(format!("head output {output}"));
        for window in [1, 9].into_iter().flat_map(windows) {
            for state in LINK_STATES {
                let idle = output == 119 || state == LinkState::Idle;
                let ahead = if idle { &WIDE } else { &ahead[..] };
                for ticks in ahead {
                    script.push(head_with(window));
                    script.push(link_line(1, &link_in(state)));
                    script.push(link_line(2, &Link::IDLE));
                    script.push(format!("head advance {ticks}"));
                }
            }
        }
    }
    script
}

/// The table that the rule comes with.
pub(super) fn worked() -> Vec<String> {
    let state = |count, state, timers| format!("box state 020000000031 {count} {state} {timers}");
    let registered = |count, timers| state(count, "registered", timers);
    let full = "0 62500000 3125000 1 10";
    let mut script = Vec::new();
    for ticks in [50, 65_536] {
        script.push(registered(1000_u32, "0 62500000 100 1 0"));
        script.push(format!("box advance {ticks}"));
    }
    script.push(registered(1090, full));
    script.extend(["box list 1 1100 200", "box light due 10 1100 200 10"].map(str::to_owned));
    script.extend([65_536, 65_536, 31, 1].map(|ticks| format!("box advance {ticks}")));
    script.push(registered(0, full));
    script.extend(["box list 0", "box light warming 5"].map(str::to_owned));
    script.extend([10, 10, 0].map(|ticks| format!("box advance {ticks}")));
    script.push(state(u32::MAX, "wait", "0 0 0 0 0"));
    script.extend(["box light rest", "box advance 65536"].map(str::to_owned));
    script.extend(worked_heads());
    script
}

fn worked_heads() -> Vec<String> {
    let registered = |periodic| Link {
        watchdog: 62_500_000,
        periodic,
        ..link_in(LinkState::Registered)
    };
    let waiting = |wait| Link {
        address: OTHER,
        wait,
        ..link_in(LinkState::Waiting)
    };
    let fresh = Head {
        address: HEAD,
        count: Count(0),
        window: Window::Before {
            left: 10,
            length: 5,
        },
    };
    let mut script = vec![format!("head new 2 {HEAD}")];
    script.extend([65_536, 65_537, 0].map(|ticks| format!("head advance {ticks}")));
    script.push(head_line(&fresh));
    for (links, ticks) in [
        ([registered(40), waiting(30)], 65_536),
        ([registered(7), waiting(7)], 9),
    ] {
        script.push(link_line(1, &links[0]));
        script.push(link_line(2, &links[1]));
        script.push(format!("head advance {ticks}"));
    }
    script
}
