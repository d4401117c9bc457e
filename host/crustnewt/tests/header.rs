//! The wrapper's numbers are the header's, and so is the version.

use crustnewt::{sys, BoxParts, FloorBox, Grant, Light, Refusal};
use std::collections::HashMap;

const HEADER: &str = include_str!("../../../include/crustnewt.h");
const CHANGES: &str = include_str!("../../../CHANGELOG.md");

/// Every `#define NAME NUMBER` and `NAME = NUMBER` of the header.
fn numbers() -> HashMap<&'static str, usize> {
    let code = HEADER
        .lines()
        .map(|line| line.trim().trim_start_matches("#define "));
    let pairs = code.filter_map(|line| {
        let mut words = line.split([' ', ',', '=']).filter(|word| !word.is_empty());
        let name = words.next()?.strip_prefix("CRUSTNEWT_")?;
        Some((name, words.next()?.parse().ok()?))
    });
    pairs.collect()
}

#[test]
fn lengths_are_the_headers() {
    let numbers = numbers();
    for (name, length) in [
        ("FRAME_OCTETS", sys::FRAME_OCTETS),
        ("MESSAGE_WORDS", sys::MESSAGE_WORDS),
        ("BOX_WORDS", sys::BOX_WORDS),
        ("BOX_FRAMES_OCTETS", sys::BOX_FRAMES_OCTETS),
        ("BOX_REPLY_WORDS", sys::BOX_REPLY_WORDS),
        ("BOX_NOTICE_WORDS", sys::BOX_NOTICE_WORDS),
        ("HEAD_WORDS", sys::HEAD_WORDS),
        ("LINK_WORDS", sys::LINK_WORDS),
        ("MOST_LINKS", sys::MOST_LINKS),
        ("HEAD_REPLY_WORDS", sys::HEAD_REPLY_WORDS),
        ("MADE_WORDS", sys::MADE_WORDS),
        ("MOST_TICKS", sys::MOST_TICKS as usize),
        ("MOST_SETS_OCTETS", sys::MOST_SETS_OCTETS),
    ] {
        assert_eq!(numbers[name], length, "{name}");
    }
}

#[test]
fn phases_are_the_headers() {
    let numbers = numbers();
    let (left, random, length, sync) = (1, 0, 106, 0);
    let grant = Grant { start: 0, length };
    for (phase, light) in [
        ("REST", Light::Rest),
        ("BEFORE", Light::Before { left, random, sync }),
        ("RANDOM", Light::Random { left, sync }),
        ("WARMING", Light::Warming { left }),
        ("ASKING", Light::Asking { left }),
        ("DUE", Light::Due { left, grant, sync }),
        ("LIT", Light::Lit { left, length, sync }),
        ("OPEN", Light::Open { left }),
        ("FADING", Light::Fading { left }),
    ] {
        let fresh = FloorBox::fresh(0x0200_0000_0031).unwrap().parts();
        let words = BoxParts { light, ..fresh }.words();
        let number = numbers[format!("BOX_LIGHT_{phase}").as_str()];
        assert_eq!(words[numbers["BOX_LIGHT"]], number as u64, "{phase}");
    }
}

#[test]
fn refusals_are_the_headers() {
    let numbers = numbers();
    for refusal in Refusal::ALL {
        let name = format!("{refusal:?}").to_uppercase();
        assert_eq!(numbers[name.as_str()], usize::from(refusal.number()));
        assert_eq!(Refusal::of(refusal.number()), Some(refusal));
    }
    assert_eq!(Refusal::of(0), None);
    assert_eq!(Refusal::of(15), None);
}

#[test]
fn the_version_is_one() {
    let version = env!("CARGO_PKG_VERSION");
    let defined = format!("#define CRUSTNEWT_VERSION \"{version}\"");
    assert!(HEADER.lines().any(|line| line == defined));
    let numbers = numbers();
    let named = ["MAJOR", "MINOR", "PATCH"];
    let parts = named.map(|part| numbers[format!("VERSION_{part}").as_str()].to_string());
    assert_eq!(parts.join("."), version);
    let newest = CHANGES.lines().find(|line| line.starts_with("## "));
    let newest = newest.unwrap().trim_start_matches("## ");
    assert_eq!(newest.split(',').next(), Some(version));
}
