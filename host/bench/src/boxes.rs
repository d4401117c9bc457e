//! Calls of a box.

use crate::frames::{written, TWO_FULL};
use crate::heads::HEAD;
use crate::kept::Kept;
use crate::measure::Case;
use crustnewt::sys::{self, BoxMemory, MOST_TICKS};
use crustnewt::{Body, BoxParts, BoxState, FloorBox, Frame, Grant, Granted, Light, Message, UpTo};
use crustnewt_tool::numbers::thousands;
use plain::{Address, Count, GrantList};
use std::hint::black_box;

/// The box of the measurements, and the first of many.
pub const BOX: u64 = 0x0200_0000_0031;

/// Ticks after which a box is set back. No window is longer than 65,471.
const TICKS: u32 = 50_000;
/// Ticks of a window that is open.
const WINDOW: u32 = 60_000;
/// Where the first of the grants that are held starts: later than a REPORT.
const START: u32 = 10_000_000;

/// The same box for both.
#[derive(Clone)]
pub struct Pair {
    /// For the proved library.
    pub proved: FloorBox,
    /// For the independent program.
    pub plain: plain::FloorBox,
}

/// Ticks of boxes, a frame that is heard, and one that is asked for.
pub fn cases() -> Vec<Case> {
    let mut cases: Vec<Case> = states()
        .map(|(name, parts)| ticking(&format!("box tick, {name}"), pair(&parts)))
        .into();
    cases.push(c_ticking(pair(&parts(BOX, BoxState::Wait))));
    cases.push(hearing("box hears GATE of four grants", registered(BOX)));
    cases.push(hearing(
        "box hears GATE, 16 grants held",
        pair(&half_past(parts(BOX, BoxState::Registered))),
    ));
    cases.push(reporting(registered(BOX)));
    cases
}

/// Advances of the same boxes, as far as nothing ends, beside a tick of each.
pub fn advances() -> Vec<Case> {
    states()
        .map(|(name, parts)| advancing(name, &pair(&parts).proved))
        .into()
}

/// What a box has to do while it is measured.
fn states() -> [(&'static str, BoxParts); 5] {
    let registered = parts(BOX, BoxState::Registered);
    let lit = BoxParts {
        light: Light::Open { left: WINDOW },
        ..registered.clone()
    };
    let holding = holding(registered.clone());
    [
        ("quiet", parts(BOX, BoxState::Wait)),
        ("waiting for REGISTER", parts(BOX, BoxState::Requesting)),
        ("registered", registered),
        ("lit", lit),
        ("16 grants held", holding),
    ]
}

/// With a full list, whose first grant it waits for.
fn holding(parts: BoxParts) -> BoxParts {
    let grants: [Grant; 16] = std::array::from_fn(|place| Grant {
        start: START + 1000 * place as u32,
        length: 500,
    });
    BoxParts {
        light: Light::Due {
            left: START,
            grant: grants[0],
            sync: 0,
        },
        grants: grants.into(),
        ..parts
    }
}

/// With a full list at rest: every other grant is past, and leaves it when the
/// next call ends.
fn half_past(parts: BoxParts) -> BoxParts {
    let grants: [Grant; 16] = std::array::from_fn(|place| Grant {
        start: [START, START.wrapping_neg()][place % 2] + place as u32,
        length: 500,
    });
    BoxParts {
        grants: grants.into(),
        ..parts
    }
}

fn ticking(name: &str, pair: Pair) -> Case {
    Case::short(name, proved_ticking(pair.proved), plain_ticking(pair.plain))
}

fn c_ticking(pair: Pair) -> Case {
    let mut block = Kept::new(*pair.proved.words(), TICKS);
    let mut frames = [0; sys::BOX_FRAMES_OCTETS];
    let mut reply = [0; sys::BOX_REPLY_WORDS];
    Case::short(
        "box tick, quiet, the C call",
        move || {
            black_box(sys::box_tick(BoxMemory {
                block: block.next(),
                frames: black_box(&mut frames),
                reply: black_box(&mut reply),
            }));
        },
        plain_ticking(pair.plain),
    )
}

fn proved_ticking(whole: FloorBox) -> impl FnMut() {
    let mut proved = Kept::new(whole, TICKS);
    move || {
        black_box(&proved.next().tick());
    }
}

fn plain_ticking(whole: plain::FloorBox) -> impl FnMut() {
    let mut plain = Kept::new(whole, TICKS);
    move || {
        black_box(&plain.next().tick());
    }
}

fn advancing(name: &str, floor_box: &FloorBox) -> Case {
    let (ticks, calls) = reach(floor_box);
    let mut proved = Kept::new(floor_box.clone(), calls);
    Case::short(
        format!("box advance by {}, {name}", thousands(ticks)),
        move || {
            black_box(&proved.next().advance(black_box(ticks)));
        },
        proved_ticking(floor_box.clone()),
    )
}

/// Ticks of an advance at which nothing ends, and how many such can be made.
fn reach(floor_box: &FloorBox) -> (u64, u32) {
    match floor_box.parts().light {
        Light::Open { .. } => (u64::from(TICKS), 1),
        _ => (MOST_TICKS, ADVANCES),
    }
}

/// Advances by 65,536 before a REPORT or a GATE comes.
pub const ADVANCES: u32 = 40;

/// A GATE of four grants. The box is set back before each, so that it holds
/// what it held.
fn hearing(name: &str, pair: Pair) -> Case {
    let frame = gate();
    let Pair { proved, plain } = pair;
    let mut proved_now = proved.clone();
    Case::short(
        name,
        move || {
            proved_now.clone_from(&proved);
            black_box(&black_box(&mut proved_now).hear(black_box(&frame), 0));
        },
        move || {
            let mut plain = plain;
            let message = plain::frame::read(black_box(&frame)).expect("it was written");
            black_box(&black_box(&mut plain).hear(&message, 0));
        },
    )
}

/// A REPORT, after which the box is as it was: its timer begins anew.
fn reporting(pair: Pair) -> Case {
    let Pair {
        mut proved,
        mut plain,
    } = pair;
    Case::short(
        "box report, two full sets",
        move || {
            black_box(&black_box(&mut proved).report(2, black_box(&TWO_FULL)));
        },
        move || {
            black_box(&black_box(&mut plain).report(2, black_box(&TWO_FULL)));
        },
    )
}

fn gate() -> Frame {
    let grants = [1000, 2000, 3000, 4000].map(|start| Granted {
        grant: Grant { start, length: 500 },
        force: false,
    });
    written(&Message::new(BOX, HEAD, 0, &Body::Gate(grants.into())))
}

/// A registered box.
pub fn registered(address: u64) -> Pair {
    pair(&parts(address, BoxState::Registered))
}

/// A box in this state, at rest and with every timer full.
pub fn parts(address: u64, state: BoxState) -> BoxParts {
    let registered = u32::from(state == BoxState::Registered);
    BoxParts {
        address,
        count: 0,
        state,
        wait: u32::from(state == BoxState::Requesting) * 3_125_000,
        watchdog: registered * 62_500_000,
        report: registered * 3_125_000,
        port: 0,
        sync: 0,
        light: Light::Rest,
        grants: UpTo::default(),
    }
}

fn pair(parts: &BoxParts) -> Pair {
    Pair {
        proved: FloorBox::restored(parts).expect("it is sound"),
        plain: plain_box(parts),
    }
}

fn plain_box(parts: &BoxParts) -> plain::FloorBox {
    let grants: Vec<_> = parts.grants.iter().map(plain_grant).collect();
    plain::FloorBox {
        address: Address(parts.address),
        count: Count(parts.count),
        state: match parts.state {
            BoxState::Wait => plain::BoxState::Wait,
            BoxState::Registering => plain::BoxState::Registering,
            BoxState::Requesting => plain::BoxState::Requesting,
            BoxState::Registered => plain::BoxState::Registered,
        },
        wait: parts.wait,
        watchdog: parts.watchdog,
        report: parts.report,
        light: plain_light(&parts.light),
        grants: GrantList::of(&grants).expect("sixteen at most"),
        ..plain::FloorBox::default()
    }
}

fn plain_light(light: &Light) -> plain::Light {
    match *light {
        Light::Rest => plain::Light::Rest,
        Light::Due { left, grant, sync } => plain::Light::Due {
            left,
            grant: plain_grant(&grant),
            sync,
        },
        Light::Open { left } => plain::Light::Open { left },
        _ => unreachable!("no such box is measured"),
    }
}

fn plain_grant(grant: &Grant) -> plain::Grant {
    plain::Grant {
        start: Count(grant.start),
        length: grant.length,
    }
}

#[cfg(test)]
mod tests {
    use super::*;

    #[test]
    fn nothing_ends_while_a_box_is_measured() {
        for (name, parts) in states() {
            let mut floor_box = pair(&parts).proved;
            let (ticks, calls) = reach(&floor_box);
            for _ in 0..calls {
                let told = floor_box.advance(ticks).unwrap();
                assert_eq!(told.made, ticks, "{name}");
                assert!(told.reply.frames().is_empty(), "{name}");
                assert!(told.reply.notices().next().is_none(), "{name}");
            }
            assert!(ticks * u64::from(calls) >= u64::from(TICKS));
        }
    }

    #[test]
    fn the_same_box_is_measured_in_both() {
        for (name, parts) in states() {
            let Pair {
                mut proved,
                mut plain,
            } = pair(&parts);
            for _ in 0..1000 {
                proved.tick().unwrap();
                plain.tick().unwrap();
            }
            let proved = proved.parts();
            assert_eq!(plain, plain_box(&proved), "{name}");
        }
    }

    #[test]
    fn half_of_a_full_list_leaves_when_a_gate_is_heard() {
        let Pair {
            mut proved,
            mut plain,
        } = pair(&half_past(parts(BOX, BoxState::Registered)));
        let message = plain::frame::read(&gate()).unwrap();
        proved.hear(&gate(), 0).unwrap();
        plain.hear(&message, 0).unwrap();
        let proved = proved.parts();
        assert_eq!(proved.grants.len(), 8);
        assert_eq!(plain, plain_box(&proved));
    }
}
