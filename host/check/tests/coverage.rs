//! The cases reach every reply number, notice and phase, every kind of source,
//! queue sets that end wherever it counts, whatever comes while light fades, and
//! past grants wherever they can stand in a list.

use check::{compare_wide, script};
use crustnewt_core::{BoxCore, Core, HeadCore, PlainCore};
use crustnewt_tool::replay::{parse, replay, Call, Script, Stage};
use plain::numbers::needed_length;
use plain::{Address, Body, BoxState, FloorBox, Frame, Grant, Light, LinkState, Message};
use std::cell::RefCell;
use std::collections::HashSet;

const BOX: Address = Address(0x0200_0000_0031);

/// Every pair of neighbouring words that the first so many cases answer.
fn pairs(cases: u64) -> HashSet<(String, String)> {
    let mut pairs = HashSet::new();
    for seed in 0..cases {
        let script = script(seed).join("\n");
        let mut output = Vec::new();
        replay(&PlainCore, script.as_bytes(), &mut output).unwrap();
        let output = String::from_utf8(output).unwrap();
        assert!(
            !output.contains('?'),
            "a line isn't of the language: {script}"
        );
        for line in output.lines() {
            let words: Vec<&str> = line.split(' ').collect();
            let owned = |pair: &[&str]| (pair[0].to_owned(), pair[1].to_owned());
            pairs.extend(words.windows(2).map(owned));
        }
    }
    pairs
}

/// A word, and the words that must follow it in some answer.
const EXPECTED: [(&str, &str); 6] = [
    ("read", "0 1 2 3 4"),
    ("head", "0 1 2 3 4 5 6 7 8 9 10 11 12 13"),
    ("box", "0 1 2 3 4 5 7 8 13 14"),
    (
        "notice",
        "request registered dropped report window refused retry deregistered grant open close",
    ),
    (
        "light",
        "rest before random warming asking due lit open fading",
    ),
    ("next", "control data empty"),
];

#[test]
fn cases_reach_every_answer() {
    let pairs = pairs(1600);
    for (first, seconds) in EXPECTED {
        for second in seconds.split(' ') {
            let pair = (first.to_owned(), second.to_owned());
            assert!(pairs.contains(&pair), "no case answers `{first} {second}`");
        }
    }
}

/// What was called with which kind of source, what it answered, and what it
/// would have answered the box.
type Met = HashSet<String>;

#[track_caller]
fn all_met(met: &Met, mut expected: Vec<String>) {
    expected.retain(|expected| !met.contains(expected));
    assert!(expected.is_empty(), "no case has: {expected:?}");
}

fn meet(met: &mut Met, call: &str, source: Address, numbers: [u8; 2]) {
    let kind = match source.0 {
        0 => "zero",
        0xFFFF_FFFF_FFFF => "all ones",
        wide if wide >> 48 != 0 => "above 48 bits",
        group if group >> 40 & 1 == 1 => "a group",
        _ => "a party",
    };
    let [number, else_number] = numbers;
    met.insert(format!("{call} from {kind}: {number}, else {else_number}"));
}

/// The source of sixty octets; `None` of others.
fn source(frame: &[u8]) -> Option<Address> {
    let frame: &Frame = frame.try_into().ok()?;
    let octets = frame[6..12].iter();
    Some(Address(
        octets.fold(0, |sum, &octet| sum << 8 | u64::from(octet)),
    ))
}

/// Its octets from another source.
fn from(source: Address, frame: &[u8]) -> Vec<u8> {
    let source = &source.0.to_be_bytes()[2..];
    [&frame[..6], source, &frame[12..]].concat()
}

/// A head that holds what another does.
fn copy(head: &dyn HeadCore) -> Box<dyn HeadCore> {
    let mut copy = PlainCore.head();
    copy.lend_links(head.links());
    copy.lend_output(head.output().to_vec());
    copy.set_state(&head.state());
    for place in 0..head.links() {
        copy.set_link(place, &head.link(place));
    }
    copy
}

/// Meets what is read or heard on this stage.
fn meet_call(met: &mut Met, stage: &Stage<'_>, call: &Call) {
    let (Call::Read(frame) | Call::BoxHear { frame, .. } | Call::HeadHear { frame, .. }) = call
    else {
        return;
    };
    let Some(source) = source(frame) else {
        return;
    };
    let frames = [frame.clone(), from(BOX, frame)];
    match *call {
        Call::BoxHear { random, .. } => {
            let floor_box = stage.floor_box.state();
            let hear = |frame: Vec<u8>| BoxCore::hear(&mut { floor_box }, &frame, random).number;
            meet(met, "box hear", source, frames.map(hear));
        }
        Call::HeadHear { link, .. } => {
            let hear = |frame: Vec<u8>| copy(&*stage.head).hear(link, &frame).number;
            meet(met, "head hear", source, frames.map(hear));
        }
        _ => {
            let read = |frame: Vec<u8>| PlainCore.read(&frame).err().unwrap_or(0);
            meet(met, "read", source, frames.map(read));
        }
    }
}

/// The plain core, which keeps what it is asked to write.
struct Writer(RefCell<Vec<Message>>);

impl Core for Writer {
    fn read(&self, frame: &[u8]) -> Result<Message, u8> {
        PlainCore.read(frame)
    }
    fn write(&self, message: &Message) -> (u8, Frame) {
        self.0.borrow_mut().push(*message);
        PlainCore.write(message)
    }
    fn head(&self) -> Box<dyn HeadCore> {
        PlainCore.head()
    }
    fn floor_box(&self) -> Box<dyn BoxCore> {
        PlainCore.floor_box()
    }
}

/// Plays the first so many cases, and hands out each call with the stage that
/// it is made on; then the messages that the writer is asked for.
fn play(cases: u64, mut see: impl FnMut(&Stage<'_>, &Call)) -> Vec<Message> {
    let writer = Writer(RefCell::default());
    for seed in 0..cases {
        let mut stage = Stage::new(&PlainCore);
        for line in script(seed) {
            let Script::Call(call) = parse(line.as_bytes()) else {
                panic!("not of the language: {line}");
            };
            see(&stage, &call);
            stage.play(&call, &mut Vec::new()).unwrap();
        }
        assert_eq!(compare_wide(&writer, &PlainCore, seed), None);
    }
    writer.0.into_inner()
}

/// The sources of the first so many cases.
fn sources(cases: u64) -> Met {
    let mut met = Met::new();
    for message in play(cases, |stage, call| meet_call(&mut met, stage, call)) {
        let messages = [
            message,
            Message {
                from: BOX,
                ..message
            },
        ];
        let numbers = messages.map(|message| PlainCore.write(&message).0);
        meet(&mut met, "write", message.from, numbers);
    }
    met
}

#[test]
fn cases_reach_every_kind_of_source() {
    let mut expected: Vec<String> = [
        "write from above 48 bits: 4, else 0",
        "write from a group: 4, else 4",
        "box hear from a group: 4, else 13",
        "head hear from zero: 4, else 7",
        "head hear from a group: 4, else 7",
    ]
    .map(str::to_owned)
    .into();
    for call in ["read", "write", "box hear", "head hear"] {
        expected.push(format!("{call} from a party: 0, else 0"));
        for source in ["zero", "a group", "all ones"] {
            expected.push(format!("{call} from {source}: 4, else 0"));
        }
    }
    all_met(&sources(1600), expected);
}

/// Of a body: how many octets number and sets take, `past` where they run past
/// its end, and what is behind them.
fn ends(body: &[u8]) -> String {
    let mut taken = 1;
    for _ in 0..body[0] {
        let queues = body.get(taken).map_or(8, |bitmap| bitmap.count_ones());
        taken += 1 + 2 * queues as usize;
    }
    match body.get(taken..) {
        None => "past".to_owned(),
        Some(pad) if pad.iter().all(|&octet| octet == 0) => format!("{taken}"),
        Some(_) => format!("{taken} and pad"),
    }
}

/// What a client asks for on this stage.
fn meet_asked(met: &mut Met, stage: &Stage<'_>, number: u8, sets: &[u8]) {
    let before = stage.floor_box.state();
    let mut floor_box = before;
    let answer = BoxCore::report(&mut floor_box, number, sets).number;
    met.insert(format!("asked for {}: {answer}", 1 + sets.len()));
    met.insert(format!("asked for {number} sets: {answer}"));
    if answer == 0 && before.light != floor_box.light {
        met.insert("asked for, and a grant is activated".to_owned());
    }
    if answer == 0 && before.light.window() > 0 {
        met.insert("asked for while transmission is enabled".to_owned());
    }
}

/// What a link hears of a REPORT on this stage.
fn meet_heard(met: &mut Met, stage: &Stage<'_>, link: u64, frame: &[u8]) {
    let reply = copy(&*stage.head).hear(link, frame);
    let is_report = frame.get(14..16) == Some(&[0, 3]);
    if !is_report || reply.number != 0 {
        return;
    }
    let told = match stage.head.link(link as usize - 1).state {
        LinkState::Waiting => "waiting link hears",
        _ => "told",
    };
    met.insert(format!("{told} {}", ends(&frame[20..])));
}

/// What is asked for, read and heard of REPORTs, and what the writer is handed.
fn reports(cases: u64) -> Met {
    let mut met = Met::new();
    let written = play(cases, |stage, call| match call {
        Call::BoxReport { number, sets } => meet_asked(&mut met, stage, *number, sets),
        Call::HeadHear { link, frame } => meet_heard(&mut met, stage, *link, frame),
        Call::Read(frame) if frame.len() == 60 && frame[15] == 3 => {
            let number = PlainCore.read(frame).err().unwrap_or(0);
            met.insert(format!("read {}: {number}", ends(&frame[20..])));
        }
        _ => {}
    });
    for message in written {
        if let Body::Report(sets) = message.body {
            let (to, from) = (BOX, BOX);
            let (number, _) = PlainCore.write(&Message {
                to,
                from,
                ..message
            });
            met.insert(format!("write {}: {number}", ends(&sets.octets())));
        }
    }
    met
}

/// Octets that a REPORT takes, and reply numbers, that must be met.
const REPORTS: [&str; 19] = [
    "asked for 39: 0",
    "asked for 40: 0",
    "asked for 41: 4",
    "asked for 42: 4",
    "asked for 40: 7",
    "asked for 41: 7",
    "asked for 41: 13",
    "asked for 0 sets: 0",
    "asked for 13 sets: 0",
    "asked for 39 sets: 0",
    "asked for 40 sets: 4",
    "asked for 255 sets: 4",
    "asked for, and a grant is activated",
    "asked for while transmission is enabled",
    "waiting link hears 1",
    "waiting link hears 40",
    "told 1 and pad",
    "read past: 4",
    "write past: 4",
];

#[test]
fn cases_reach_every_end_of_queue_sets() {
    let mut expected: Vec<String> = REPORTS.map(str::to_owned).into();
    for taken in [1, 2, 18, 38, 39, 40] {
        expected.push(format!("read {taken}: 0"));
        expected.push(format!("told {taken}"));
        expected.push(format!("write {taken}: 0"));
    }
    for taken in [1, 4, 38, 39] {
        expected.push(format!("read {taken} and pad: 0"));
        expected.push(format!("write {taken} and pad: 4"));
    }
    all_met(&reports(6400), expected);
}

/// What a call does to this box, and its reply number; of ticks the first, and
/// `None` of other calls.
fn done_to(before: &FloorBox, call: &Call) -> Option<(FloorBox, u8)> {
    let mut floor_box = *before;
    let number = match call {
        Call::BoxHear { random, frame } => BoxCore::hear(&mut floor_box, frame, *random).number,
        Call::BoxDeregister => BoxCore::deregister(&mut floor_box).number,
        Call::BoxTick(1..) => BoxCore::tick(&mut floor_box).number,
        _ => return None,
    };
    Some((floor_box, number))
}

/// What a box hears, and how its state changes, while it fades.
fn meet_fading(met: &mut Met, before: &FloorBox, call: &Call) {
    let (Light::Fading { left }, Some((after, number))) = (before.light, done_to(before, call))
    else {
        return;
    };
    let state = before.state;
    if after.state != state {
        let name = after.light.name();
        met.insert(format!("{state:?} to {:?}: {name}", after.state));
    }
    match call {
        Call::BoxHear { frame, .. } => {
            match PlainCore.read(frame).map(|message| message.body) {
                Ok(Body::Discovery { .. }) => {
                    met.insert(format!("{state:?} hears discovery: {number}"))
                }
                Ok(Body::Gate(_)) => met.insert(format!("{state:?} hears a gate: {number}")),
                _ => false,
            };
        }
        Call::BoxTick(ticks) => {
            met.insert(format!("{state:?} fades, {left} left: {number}"));
            if number == 0 && u64::from(left) <= *ticks {
                meet_dark(met, before, left);
            }
        }
        _ => {}
    }
}

/// When the grants of a fading box start, and what it does when it is dark.
fn meet_dark(met: &mut Met, before: &FloorBox, left: u32) {
    for grant in before.grants.as_slice() {
        let ticks = before.count.ticks_until(grant.start);
        let when = ticks.map(|ticks| ticks.cmp(&left));
        met.insert(format!("a grant starts, and it is dark: {when:?}"));
    }
    let mut after = *before;
    for _ in 0..left {
        BoxCore::tick(&mut after);
    }
    let name = after.light.name();
    met.insert(format!("{:?} is dark, then {name}", before.state));
}

/// Lengths by what they are above the needed one, and what comes of them.
fn meet_lengths(met: &mut Met, stage: &Stage<'_>, call: &Call) {
    let before = stage.floor_box.state();
    match call {
        Call::HeadOpen(asked) => {
            let spare = i64::from(asked.grant.length) - i64::from(needed_length(asked.sync));
            let number = copy(&*stage.head).open_window(asked).number;
            met.insert(format!("open {spare}: {number}"));
        }
        Call::BoxHear { frame, .. } if before.light == Light::Rest => {
            let Some((after, 0)) = done_to(&before, call) else {
                return;
            };
            let Ok(Body::Discovery { granted, sync }) =
                PlainCore.read(frame).map(|message| message.body)
            else {
                return;
            };
            let spare = i64::from(granted.grant.length) - i64::from(needed_length(sync));
            let acts = after.light != Light::Rest;
            met.insert(format!("{:?}, discovery {spare}: {acts}", before.state));
        }
        Call::BoxTick(1..) if before.light == Light::Rest && before.is_sound() => {
            for grant in before.grants.as_slice() {
                let spare = i64::from(grant.length) - i64::from(needed_length(before.sync));
                met.insert(format!("{:?}, held {spare}", before.state));
            }
        }
        _ => {}
    }
}

/// What must come about around fading.
const FADING: [&str; 18] = [
    "a grant starts, and it is dark: None",
    "a grant starts, and it is dark: Some(Less)",
    "a grant starts, and it is dark: Some(Equal)",
    "a grant starts, and it is dark: Some(Greater)",
    "Registered is dark, then rest",
    "Registered is dark, then due",
    "Registered is dark, then lit",
    "Registering is dark, then rest",
    "Requesting to Registered: fading",
    "Requesting to Registering: fading",
    "Requesting to Wait: rest",
    "Registered to Wait: rest",
    "Registering hears discovery: 0",
    "Registered hears a gate: 0",
    "open -1: 9",
    "open 0: 0",
    "Registering, discovery -1: false",
    "Registering, discovery 0: true",
];

#[test]
fn cases_reach_whatever_comes_while_light_fades() {
    let mut met = Met::new();
    play(3200, |stage, call| {
        meet_fading(&mut met, &stage.floor_box.state(), call);
        meet_lengths(&mut met, stage, call);
    });
    let mut expected: Vec<String> = FADING.map(str::to_owned).into();
    for spare in [-1, 0, 1] {
        expected.push(format!("Registered, held {spare}"));
    }
    for state in [
        BoxState::Registering,
        BoxState::Requesting,
        BoxState::Registered,
    ] {
        for left in [1, 2, 31, 32] {
            expected.push(format!("{state:?} fades, {left} left: 0"));
        }
    }
    all_met(&met, expected);
}

/// How many grants a box at rest holds, and which of them are past when the
/// next is chosen.
fn meet_past(met: &mut Met, before: &FloorBox, call: &Call) {
    let Some((after, 0)) = done_to(before, call) else {
        return;
    };
    let registered = [before.state, after.state] == [BoxState::Registered; 2];
    if before.light != Light::Rest || !registered {
        return;
    }
    let held = before.grants.as_slice();
    let is_past = |grant: &Grant| after.count.ticks_until(grant.start).is_none();
    let past = held.iter().filter(|grant| is_past(grant)).count();
    let which = match (
        held.first().is_some_and(is_past),
        held.last().is_some_and(is_past),
    ) {
        _ if past == 0 => "none",
        _ if past == held.len() => "all",
        (true, false) => "the first",
        (false, true) => "the last",
        (false, false) => "one between",
        (true, true) => "first and last",
    };
    met.insert(format!("{} held, past: {which}", held.len()));
}

/// Which grants of a list can be past; of a list of one the first two.
const PAST: [&str; 6] = [
    "none",
    "all",
    "the first",
    "the last",
    "one between",
    "first and last",
];

#[test]
fn cases_reach_past_grants_wherever_they_stand() {
    let mut met = Met::new();
    play(25_600, |stage, call| {
        meet_past(&mut met, &stage.floor_box.state(), call)
    });
    let mut expected = vec!["0 held, past: none".to_owned()];
    for held in [1, 15, 16] {
        let which = PAST.iter().take(if held == 1 { 2 } else { PAST.len() });
        expected.extend(which.map(|which| format!("{held} held, past: {which}")));
    }
    all_met(&met, expected);
}
