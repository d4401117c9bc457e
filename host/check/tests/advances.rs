//! The cases reach everything that can end an advance or pass in it.

use check::script;
use crustnewt_core::{Advanced, BoxCore, Core, PlainCore};
use crustnewt_tool::replay::{parse, Call, Script, Stage};
use plain::{FloorBox, Head, Light, Window};
use std::collections::HashSet;

/// What must come about in some advance of a case.
const EXPECTED: [&str; 39] = [
    "box is refused with 9",
    "box is refused with 13",
    "box is refused with 14",
    "box of 14 is refused with 9",
    "box of 13 is refused with 13, by a number out of range",
    "box makes all",
    "box makes 65536",
    "box makes 65535",
    "box stops before a refusal",
    "box stops, notice Window",
    "box stops, notice Retry",
    "box stops, notice Deregistered",
    "box stops, notice Open",
    "box stops, notice Close",
    "box stops, a REPORT",
    "box stops at the last tick",
    "box wraps",
    "silent, before to random",
    "silent, before to warming",
    "silent, random to warming",
    "silent, asking to fading",
    "silent, fading to rest",
    "silent, fading to due",
    "silent, fading to lit",
    "silent, due to lit",
    "silent, rest to due",
    "silent, rest to lit",
    "silent, grants leave",
    "head is refused with 9",
    "head is refused with 12",
    "head is refused with 13",
    "head of 12 is refused with 12, by a number out of range",
    "head makes all",
    "head makes 65536",
    "head stops, one frame",
    "head stops, more frames",
    "window opens",
    "window closes",
    "window opens and closes",
];

type Met = HashSet<String>;

/// What comes about in the advances of the first so many cases.
fn met(cases: u64) -> Met {
    let mut met = Met::new();
    for seed in 0..cases {
        let mut stage = Stage::new(&PlainCore);
        for line in script(seed) {
            let Script::Call(call) = parse(line.as_bytes()) else {
                panic!("not of the language: {line}");
            };
            match call {
                Call::BoxAdvance(ticks) => meet_box(&mut met, &stage.floor_box.state(), ticks),
                Call::HeadAdvance(ticks) => meet_head(&mut met, &mut stage, ticks),
                _ => {}
            }
            if !matches!(call, Call::HeadAdvance(_)) {
                stage.play(&call, &mut Vec::new()).unwrap();
            }
        }
    }
    met
}

fn meet_box(met: &mut Met, before: &FloorBox, ticks: u64) {
    let mut floor_box = PlainCore.floor_box();
    floor_box.set_state(before);
    let Advanced { reply, made } = floor_box.advance(ticks);
    let after = floor_box.state();
    let first = BoxCore::tick(&mut { *before }).number;
    let mut meet = |what: String| {
        met.insert(what);
    };
    if reply.number != 0 {
        meet(format!("box is refused with {}", reply.number));
        meet(match (first, ticks) {
            (13, 0 | 65_537..) => "box of 13 is refused with 13, by a number out of range".into(),
            _ => format!("box of {first} is refused with {}", reply.number),
        });
        return;
    }
    if after.count.0 < before.count.0 {
        meet("box wraps".into());
    }
    for notice in reply.notices.iter() {
        meet(format!("box stops, notice {notice:?}"));
    }
    match (reply.is_quiet(), made == ticks) {
        (true, true) => {
            meet("box makes all".into());
            meet(format!("box makes {made}"));
        }
        (true, false) => meet("box stops before a refusal".into()),
        (false, true) => meet("box stops at the last tick".into()),
        (false, false) if reply.notices.is_empty() => meet("box stops, a REPORT".into()),
        (false, false) => {}
    }
    if reply.is_quiet() {
        meet(format!(
            "silent, {} to {}",
            before.light.name(),
            after.light.name()
        ));
    }
    if reply.is_quiet() && after.light == Light::Rest && !before.grants.is_empty() {
        meet("silent, grants leave".into());
    }
}

/// Advances the stage's own head.
fn meet_head(met: &mut Met, stage: &mut Stage<'_>, ticks: u64) {
    let before = stage.head.state();
    let Advanced { reply, made } = stage.head.advance(ticks);
    let mut meet = |what: String| {
        met.insert(what);
    };
    match (reply.number, reply.frames) {
        (0, 0) => {
            assert_eq!(made, ticks);
            meet("head makes all".into());
            meet(format!("head makes {made}"));
        }
        (0, 1) => meet("head stops, one frame".into()),
        (0, _) => meet("head stops, more frames".into()),
        (number, _) => meet(format!("head is refused with {number}")),
    }
    if reply.number == 12 && !(1..=65_536).contains(&ticks) {
        meet("head of 12 is refused with 12, by a number out of range".into());
    }
    meet(window(&before, &stage.head.state()).into());
}

fn window(before: &Head, after: &Head) -> &'static str {
    match (before.window, after.window) {
        (Window::Before { .. }, Window::Inside { .. }) => "window opens",
        (Window::Before { .. }, Window::Idle) => "window opens and closes",
        (Window::Inside { .. }, Window::Idle) => "window closes",
        _ => "window stays",
    }
}

#[test]
fn cases_reach_every_end_of_an_advance() {
    let met = met(2400);
    let missed: Vec<&str> = { EXPECTED.into_iter() }
        .filter(|expected| !met.contains(*expected))
        .collect();
    assert!(missed.is_empty(), "no case has: {missed:?}");
}
