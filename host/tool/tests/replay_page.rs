//! What `docs/REPLAY.md` says of the language is what is taken, and its examples
//! print what they say.

use crustnewt_tool::cores::CORES;
use crustnewt_tool::replay::{parse, replay, Call, Script};
use std::collections::{BTreeSet, HashMap};

const PAGE: &str = include_str!("../../../docs/REPLAY.md");

/// The cells of the page's tables, line by line.
fn rows() -> Vec<Vec<&'static str>> {
    let row = |line: &'static str| {
        let inner = line.strip_prefix("| ")?.strip_suffix(" |")?;
        Some(inner.split(" | ").map(str::trim).collect())
    };
    PAGE.lines().filter_map(row).collect()
}

/// What a cell has between backquotes.
fn quoted(cell: &'static str) -> impl Iterator<Item = &'static str> {
    cell.split('`').skip(1).step_by(2)
}

/// The lines of the language, as the tables have them.
fn forms() -> Vec<&'static str> {
    let firsts = rows().into_iter().flat_map(|row| quoted(row[0]).next());
    firsts
        .filter(|form| form.starts_with(char::is_lowercase))
        .collect()
}

/// The largest number that a word in capitals stands for.
fn largest() -> HashMap<&'static str, u128> {
    let mut largest = HashMap::new();
    for row in rows() {
        let range = row.get(1).and_then(|cell| cell.strip_prefix("0 to "));
        if let Some(high) = range.and_then(|high| high.replace(',', "").parse().ok()) {
            largest.extend(quoted(row[0]).map(|word| (word, high)));
        }
    }
    largest
}

/// A line of this form, with this number for one of its words.
fn line(form: &str, other: Option<(&str, u128)>) -> String {
    let word = |word: &str| match (word, other) {
        ("ADDRESS", _) => "020000000001".to_owned(),
        ("FRAME", _) => "00".to_owned(),
        (word, Some((name, number))) if word == name => number.to_string(),
        // One grant, one link: one pair is what then follows. One set with
        // one bit: one length.
        (word, _) if word.starts_with(char::is_uppercase) => "1".to_owned(),
        (word, _) => word.to_owned(),
    };
    let words = form.split(' ').filter(|word| *word != "..").map(word);
    words.collect::<Vec<String>>().join(" ")
}

fn call(line: &str) -> Option<Call> {
    match parse(line.as_bytes()) {
        Script::Call(call) => Some(call),
        _ => None,
    }
}

#[test]
fn every_line_of_the_page_is_taken_with_its_numbers_and_no_larger_ones() {
    let largest = largest();
    assert_eq!(largest.len(), 24);
    for form in forms() {
        assert!(call(&line(form, None)).is_some(), "{form}");
        for word in form
            .split(' ')
            .filter(|word| !["GRANTS", "HELD", "SETS", "BITMAP"].contains(word))
        {
            let Some(&high) = largest.get(word) else {
                continue;
            };
            assert!(
                call(&line(form, Some((word, high)))).is_some(),
                "{form}: {word}"
            );
            let above = line(form, Some((word, high + 1)));
            assert!(call(&above).is_none(), "{above}");
        }
    }
}

/// A name for each kind of line. A further one has no name here, and then none
/// on the page.
fn name(call: &Call) -> &'static str {
    match call {
        Call::Read(_) => "read",
        Call::HeadNew { .. } => "head new",
        Call::HeadOutput(_) => "head output",
        Call::HeadOpen(_) => "head open",
        Call::HeadAdmit(_) => "head admit",
        Call::HeadReject(_) => "head reject",
        Call::HeadReregister { .. } => "head reregister",
        Call::HeadDeregister { .. } => "head deregister",
        Call::HeadGate(_) => "head gate",
        Call::HeadHear { .. } => "head hear",
        Call::HeadTick(_) => "head tick",
        Call::HeadAdvance(_) => "head advance",
        Call::HeadState(_) => "head state",
        Call::HeadLink { .. } => "head link",
        Call::BoxNew(_) => "box new",
        Call::BoxRegister => "box register",
        Call::BoxDeregister => "box deregister",
        Call::BoxReport { .. } => "box report",
        Call::BoxHear { .. } => "box hear",
        Call::BoxNext { .. } => "box next",
        Call::BoxTick(_) => "box tick",
        Call::BoxAdvance(_) => "box advance",
        Call::BoxState(_) => "box state",
        Call::BoxList(_) => "box list",
        Call::BoxLight(_) => "box light",
        Call::BothTick(_) => "both tick",
    }
}

const KINDS: usize = 26;

#[test]
fn every_kind_of_line_is_on_the_page() {
    let mut kinds = BTreeSet::new();
    for form in forms() {
        let name = name(&call(&line(form, None)).unwrap());
        assert!(form.starts_with(name), "{form}");
        kinds.insert(name);
    }
    assert_eq!(kinds.len(), KINDS, "{kinds:?}");
}

/// A script of `examples/replay`, and its answers.
macro_rules! example {
    ($name:literal) => {
        (
            include_str!(concat!("../../../examples/replay/", $name, ".replay")),
            include_str!(concat!("../../../examples/replay/", $name, ".txt")),
        )
    };
}

/// What stands in the page's block of this kind.
fn block(kind: &str) -> &'static str {
    let (_, behind) = PAGE.split_once(&format!("\n```{kind}\n")).unwrap();
    let (block, _) = behind.split_once("```").unwrap();
    block
}

#[test]
fn examples_print_what_was_worked_out() {
    for (script, expected) in [
        example!("first-night"),
        example!("queue-lengths"),
        example!("lingering-light"),
        example!("past-grants"),
        (block("replay"), block("answers")),
    ] {
        for (core, make) in CORES {
            let mut output = Vec::new();
            replay(&*make(), script.as_bytes(), &mut output).unwrap();
            assert_eq!(String::from_utf8(output).unwrap(), expected, "{core}");
        }
    }
}
