//! Light that lingers (R28, R244 to R246): what comes while it fades, grants
//! that start around another's end, lengths around the needed one; and the
//! cases that the rule's own page works out.

use super::{bodies, box_in, box_lines, digits, quiet, stamped, BOX_STATES};
use super::{Address, Body, BoxState, Count, Gate, Grant, Granted, Light, BOX, HEAD};
use plain::numbers::{needed_length, LONGEST};

/// The lines that set a quiet box.
fn quiet_lines(count: u32, state: BoxState, sync: u32) -> Vec<String> {
    box_lines(&quiet(count, state, sync))
}

fn granted(start: u32, length: u32) -> Granted {
    let start = Count(start);
    Granted {
        grant: Grant { start, length },
        force: false,
    }
}

fn hear(random: u32, stamp: u32, to: Address, body: Body) -> String {
    let digits = stamped(Count(stamp), to, HEAD, body);
    format!("box hear {random} {digits}")
}

fn hear_gate(stamp: u32, grants: &[Granted]) -> String {
    let gate = Gate::of(grants).expect("at most four");
    hear(0, stamp, BOX, Body::Gate(gate))
}

fn hear_discovery(random: u32, stamp: u32, granted: Granted, sync: u32) -> String {
    let body = Body::Discovery { granted, sync };
    hear(random, stamp, Address::EVERYONE, body)
}

/// Every state in fading's first and last ticks, and around its bounds: each
/// call, and then the ticks to its end.
pub(super) fn in_every_state() -> Vec<String> {
    let mut script = Vec::new();
    for state in BOX_STATES {
        for left in [0, 1, 2, 31, 32, 33] {
            let fading = box_in(state, Light::Fading { left });
            for call in calls(left) {
                script.extend(box_lines(&fading));
                script.push(call);
                script.extend(["box next 60 0", "box tick 34"].map(str::to_owned));
            }
        }
    }
    script
}

fn calls(left: u32) -> Vec<String> {
    let requests = ["box register", "box deregister", "box report 0"];
    let mut calls: Vec<String> = requests.map(str::to_owned).into();
    for body in bodies() {
        calls.push(format!("box hear 11 {}", digits(BOX, HEAD, body)));
    }
    for ticks in left.saturating_sub(1)..=left + 1 {
        calls.push(format!("box tick {ticks}"));
        calls.push(format!("box advance {ticks}"));
    }
    calls
}

/// The first ends at 370, its light is ordered off at 338; the second starts
/// from a tick before that to one behind the end.
pub(super) fn one_behind_another() -> Vec<String> {
    let mut script = Vec::new();
    for start in 337..=371 {
        let grants = [granted(220, 150), granted(start, 116)];
        script.extend(quiet_lines(100, BoxState::Registered, 10));
        script.push(hear_gate(100, &grants));
        // As far as the next notice: open, close, open, close; then to rest.
        script.extend(["box advance 200"; 5].map(str::to_owned));
    }
    script
}

/// Normal grants, discovery grants and windows of the head, of lengths around
/// the needed one and around what it would be without the laser-off time.
pub(super) fn around_needed() -> Vec<String> {
    let mut script = vec![format!("head new 1 {HEAD}")];
    for sync in [0, 1, 10, 65_428, 65_429, 65_430, 65_461, 65_535] {
        let needed = needed_length(sync);
        let lengths = [needed - 33, needed - 32, needed - 1, needed, needed + 1];
        for length in lengths.map(|length| length.min(LONGEST)) {
            script.extend(quiet_lines(0, BoxState::Registered, sync));
            script.push(hear_gate(0, &[granted(9, length)]));
            script.push("box tick 70000".to_owned());
            for random in [0, 1, 33, u32::MAX] {
                script.extend(quiet_lines(0, BoxState::Registering, 0));
                script.push(hear_discovery(random, 0, granted(9, length), sync));
                script.push("box tick 70000".to_owned());
            }
            script.push(format!("head state {HEAD} 0 idle 0 0"));
            script.push(format!("head open 9 {length} {sync} 1"));
        }
    }
    script
}

/// Two grants end to end, with a second one a tick early, cut short by the
/// client; discovery with the random numbers of the sums.
pub(super) fn worked() -> Vec<String> {
    let mut script = Vec::new();
    for (second, ticks) in [(1300, 600), (1299, 600), (1300, 280)] {
        script.extend(quiet_lines(1000, BoxState::Registered, 10));
        script.push(hear_gate(1000, &[granted(1100, 200), granted(second, 200)]));
        script.push(format!("box tick {ticks}"));
    }
    script.extend(["box deregister", "box register"].map(str::to_owned));
    script.push(hear_discovery(7, 1280, granted(1280, 106), 0));
    for (length, random) in [(174, 250), (174, 101), (106, 250), (105, 250)] {
        script.extend(quiet_lines(1000, BoxState::Registering, 0));
        script.push(hear_discovery(random, 1000, granted(2000, length), 0));
        script.push("box tick 1300".to_owned());
    }
    for left in [42, 41] {
        script.push(format!("box light open {left}"));
        script.push("box next 60 0".to_owned());
    }
    script
}
