//! The checks find the proved core where it is spoiled in a small way, and
//! nothing where it isn't.

mod cores;
mod flaws;
mod sets;

use check::{check, check_fixed, compare, compare_wide};
use cores::Spoiled;
use crustnewt_core::{Core, PlainCore};
use crustnewt_tool::night::{self, Options, Progress, Scenario};
use crustnewt_tool::replay::replay;
use flaws::{Flaw, OF_ADVANCES, OF_FADING, OF_REPORTS};
use plain::numbers::TICKS_PER_SECOND;

/// Lines of the shortest script that shows a flaw beside another core. The
/// first one may be a joint run's, which takes more lines than a state does.
fn found(core: &dyn Core, flaw: Flaw) -> Option<usize> {
    let spoiled = Spoiled(flaw);
    let failures = (1..8000).filter_map(|seed| check(core, &spoiled, seed).err());
    let failure = failures
        .take(2)
        .min_by_key(|failure| failure.script.len())?;
    assert!(compare(core, &spoiled, &failure.script).is_some());
    let mut played = Vec::new();
    replay(&PlainCore, failure.to_string().as_bytes(), &mut played).unwrap();
    assert!(!played.contains(&b'?'), "{failure}");
    let shorter = failure.script.iter().enumerate().map(|(drop, _)| {
        let mut rest = failure.script.clone();
        rest.remove(drop);
        rest
    });
    for rest in shorter {
        assert_eq!(compare(core, &spoiled, &rest), None);
    }
    Some(failure.script.len())
}

#[test]
fn equal_cores_do_not_differ() {
    for seed in 0..400 {
        assert!(check(&PlainCore, &Spoiled(Flaw::None), seed).is_ok());
        assert_eq!(compare_wide(&PlainCore, &Spoiled(Flaw::None), seed), None);
    }
}

#[test]
fn fixed_cases_find_flaws_too() {
    assert!(check_fixed(&PlainCore, &Spoiled(Flaw::None)).is_ok());
    for flaw in [
        Flaw::WatchdogOnDiscovery,
        Flaw::StrayOctet,
        Flaw::TakesGroup,
        Flaw::TakesZero,
        Flaw::JudgesDestination,
    ]
    .into_iter()
    .chain(OF_REPORTS)
    .chain(OF_FADING)
    {
        let failure = check_fixed(&PlainCore, &Spoiled(flaw)).unwrap_err();
        assert!(failure.script.len() <= 6, "{failure}");
    }
}

#[test]
fn each_flaw_is_found_and_shrunk() {
    for flaw in [
        Flaw::WatchdogOnDiscovery,
        Flaw::CountMovesReport,
        Flaw::StrayOctet,
        Flaw::FitsShortWindow,
        Flaw::RefusedTickCounts,
        Flaw::HiddenField,
        Flaw::GateKeepsPeriodic,
        Flaw::TripAtWrap,
        Flaw::RefusedFreshIdles,
        Flaw::RefusalTells,
        Flaw::ReadsPad,
        Flaw::Panics,
        Flaw::TakesGroup,
        Flaw::TakesZero,
        Flaw::JudgesDestination,
    ]
    .into_iter()
    .chain(OF_REPORTS)
    .chain(OF_FADING)
    .chain(OF_ADVANCES)
    {
        let lines = found(&PlainCore, flaw);
        assert!(lines.is_some_and(|lines| lines <= 8), "{flaw:?} {lines:?}");
    }
}

/// Its own single ticks give away an advance that is wrong on both sides.
#[test]
fn advances_are_held_against_the_ticks_of_the_same_core() {
    for flaw in OF_ADVANCES {
        let lines = found(&Spoiled(flaw), flaw);
        assert!(lines.is_some_and(|lines| lines <= 8), "{flaw:?} {lines:?}");
    }
}

/// A night whose head or boxes are silent for less time than they say, or stop
/// early, ends badly.
#[test]
fn a_night_holds_ticks_made_against_what_was_said() {
    for (flaw, goes_well) in [
        (Flaw::None, true),
        (Flaw::HeadUntilMore, false),
        (Flaw::BoxUntilMore, false),
        (Flaw::OneTickMore, false),
        (Flaw::StopsBeforeRing, false),
        (Flaw::StopsAtWindow, false),
    ] {
        let options = Options {
            scenario: Scenario::Dark,
            // With more of them a frame may arrive at the tick in question.
            boxes: 1,
            delay: 62,
            loss: 0,
            seed: 1,
            busy: None,
            ticks: 3 * TICKS_PER_SECOND,
            every_tick: false,
        };
        let ended = night::run(&Spoiled(flaw), &options, Vec::new(), Progress::nowhere());
        assert_eq!(ended.unwrap(), goes_well, "{flaw:?}");
    }
}

#[test]
fn flaws_that_no_script_shows_are_found_by_asking_directly() {
    for (flaw, seeds) in [
        (Flaw::WritesWide, 200),
        (Flaw::WritesGroup, 200),
        (Flaw::WritesZero, 200),
        (Flaw::WritesPad, 1000),
        (Flaw::PassesOverOctet, 1000),
        (Flaw::TellsPad, 10_000),
    ] {
        let spoiled = Spoiled(flaw);
        let mut seeds = 0..seeds;
        let found = seeds.any(|seed| compare_wide(&PlainCore, &spoiled, seed).is_some());
        assert!(found, "{flaw:?}");
        assert!((0..200).all(|seed| check(&PlainCore, &spoiled, seed).is_ok()));
    }
}
