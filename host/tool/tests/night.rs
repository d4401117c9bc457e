//! Nights end as the rules let them.

use crustnewt_tool::cores::{core_named, CORES};
use crustnewt_tool::night::{run, Options, Progress, Scenario};
use crustnewt_tool::progress::ProgressLine;
use plain::numbers::TICKS_PER_SECOND;
use std::cell::RefCell;
use std::io::{self, Write};
use std::time::Duration;

/// How a night goes: the same on every core.
fn night(options: &Options) -> (bool, String) {
    let nights = CORES.iter().map(|(_, make)| {
        let mut output = Vec::new();
        let kept = run(&*make(), options, &mut output, Progress::nowhere()).unwrap();
        (kept, String::from_utf8(output).unwrap())
    });
    let nights: Vec<(bool, String)> = nights.collect();
    assert!(nights.iter().all(|night| *night == nights[0]));
    nights[0].clone()
}

fn options(scenario: Scenario) -> Options {
    Options {
        scenario,
        boxes: 3,
        delay: 62,
        loss: scenario.loss(),
        seed: 1,
        busy: None,
        ticks: scenario.seconds() * TICKS_PER_SECOND,
        every_tick: false,
    }
}

/// The tick at which a line of the timeline says this of floor 31.
fn tick_of(timeline: &str, what: &str) -> u64 {
    let told = |line: &&str| line.contains("floor 31") && line.contains(what);
    let line = timeline.lines().rfind(told).unwrap();
    let digits = line.split_whitespace().nth(3).unwrap();
    digits.replace(',', "").parse().unwrap()
}

#[test]
fn floor_31_leaves_within_its_watchdog_and_comes_back() {
    for boxes in [1, 3, 40] {
        floor_31(&Options {
            boxes,
            ..options(Scenario::Floor31)
        });
    }
}

fn floor_31(options: &Options) {
    let (kept, timeline) = night(options);
    assert!(kept, "{timeline}");
    let dropped = tick_of(&timeline, "the head drops it");
    let left = tick_of(&timeline, "leaves by itself");
    let back = tick_of(&timeline, "is registered at both ends");
    assert_eq!(dropped, 62_500_000);
    // Its last GATE came no more than a round of gates and a delay before.
    assert!(left > dropped + 62_500_000 - 1_100_000 && left <= dropped + 62_500_000 + 62);
    assert!(back > left && back < left + 2 * 6_250_000);
    let told = [
        ("was dropped by the head", dropped),
        ("left", left),
        ("was back", back),
    ];
    assert!(ends_with(&timeline, &told), "{timeline}");
}

/// Whether the night's last lines tell this of floor 31, in this order.
fn ends_with(timeline: &str, story: &[(&str, u64)]) -> bool {
    let last: Vec<&str> = timeline.lines().rev().take(story.len()).collect();
    let mut pairs = last.iter().rev().zip(story);
    pairs.all(|(line, (what, tick))| {
        let begins = line.starts_with(&format!("Floor 31 {what} at "));
        let digits: String = line.chars().filter(char::is_ascii_digit).collect();
        begins && digits.ends_with(&tick.to_string())
    })
}

#[test]
fn a_night_that_ends_early_tells_no_return() {
    let cut_short = |scenario| Options {
        ticks: TICKS_PER_SECOND,
        ..options(scenario)
    };
    let (_, timeline) = night(&cut_short(Scenario::Floor31));
    let story: Vec<&str> = { timeline.lines() }
        .filter(|line| line.starts_with("Floor 31 "))
        .collect();
    let expected = [
        "Floor 31 was dropped by the head at 1.000000 s (tick 62,500,000).",
        "Floor 31 was not back when the night ended.",
    ];
    assert_eq!(story, expected);
    // Its fibre is cut in the last tick, and neither end knows.
    let (_, timeline) = night(&cut_short(Scenario::Dark));
    let registered = tick_of(&timeline, "is registered at both ends");
    assert!(ends_with(&timeline, &[("was registered", registered)]));
    assert_eq!(timeline.matches("\nFloor 31 ").count(), 1);
}

#[test]
fn on_a_quiet_night_nobody_is_dropped() {
    let quiet = Options {
        boxes: 64,
        delay: 5000,
        ticks: TICKS_PER_SECOND,
        ..options(Scenario::Quiet)
    };
    let (kept, timeline) = night(&quiet);
    assert!(kept, "{timeline}");
    assert_eq!(timeline.matches("is registered at both ends").count(), 64);
    assert!(!timeline.contains("drops") && !timeline.contains("leaves"));
}

#[test]
fn no_half_open_pair_lasts_in_storm_and_dark() {
    for scenario in [Scenario::Storm, Scenario::Dark] {
        for seed in 0..3 {
            let asked = Options {
                seed,
                ticks: 4 * TICKS_PER_SECOND,
                ..options(scenario)
            };
            let (kept, timeline) = night(&asked);
            assert!(kept, "{timeline}");
        }
    }
}

#[test]
fn advances_end_where_single_ticks_do() {
    // The second is long enough for retries and for rounds of gates.
    for (boxes, loss, ticks) in [(2, 0, 300_000), (1, 400, 3_500_000)] {
        let advancing = Options {
            boxes,
            loss,
            ticks,
            ..options(Scenario::Storm)
        };
        let every_tick = Options {
            every_tick: true,
            ..advancing
        };
        assert_eq!(night(&advancing), night(&every_tick));
    }
}

/// The floors that the timeline names as the one that waits longest, and how
/// many quanta their queues have then.
fn named(timeline: &str) -> Vec<(&str, u64)> {
    let lines = timeline.lines();
    let told = lines.filter_map(|line| line.split_once("waits longest: "));
    let named = told.map(|(who, queue)| {
        let floor = who.trim_end().rsplit("  ").next().unwrap();
        (floor, number(queue.split_once(' ').unwrap().0))
    });
    named.collect()
}

fn number(digits: &str) -> u64 {
    digits.replace(',', "").parse().unwrap()
}

/// The closing line that begins so, without that.
fn closing<'a>(timeline: &'a str, begin: &str) -> &'a str {
    let line = timeline.lines().find_map(|line| line.strip_prefix(begin));
    line.unwrap_or_else(|| panic!("no {begin} in {timeline}"))
}

/// Quanta and queue of the longest queue of the night, as its line tells them.
fn longest(timeline: &str, floor: u32) -> u64 {
    let told = closing(timeline, &format!("Waited longest: floor {floor}, "));
    number(told.split_once(" quanta").unwrap().0)
}

#[test]
fn the_busy_floor_is_named_until_it_has_caught_up() {
    for busy in [29, 30, 31] {
        for delay in [1, 5000] {
            let asked = Options {
                busy: Some(busy),
                delay,
                ..options(Scenario::Quiet)
            };
            let (kept, timeline) = night(&asked);
            assert!(kept, "{timeline}");
            let floor = format!("floor {busy}");
            let [(named, quanta)] = named(&timeline)[..] else {
                panic!("{timeline}");
            };
            assert!(named == floor && quanta > 1024, "{timeline}");
            // In 300 ms 75 frames of 512 quanta come, besides 1 to 4 that come
            // anyway; 18 to 20 windows take one or two each, and in another 4
            // the next REPORT comes.
            let most = longest(&timeline, busy);
            assert!((28 * 512..=61 * 512).contains(&most), "{timeline}");
            let caught_up = format!("{floor}  has caught up, and no floor waits");
            assert_eq!(timeline.matches(&caught_up).count(), 1, "{timeline}");
            closing(
                &timeline,
                "No floor waits at the end; the longest queue is ",
            );
        }
    }
}

#[test]
fn without_a_busy_floor_nobody_waits() {
    // Floor 7 has no box either.
    for busy in [0, 7] {
        let asked = Options {
            busy: Some(busy),
            ..options(Scenario::Quiet)
        };
        let (_, timeline) = night(&asked);
        assert!(named(&timeline).is_empty(), "{timeline}");
        closing(&timeline, "No floor waited; the longest queue was floor ");
    }
}

#[test]
fn a_floor_that_comes_back_has_waited_meanwhile() {
    let asked = Options {
        busy: Some(0),
        ..options(Scenario::Floor31)
    };
    let (_, timeline) = night(&asked);
    assert!(tick_of(&timeline, "waits longest") > tick_of(&timeline, "is registered"));
    let [("floor 31", _)] = named(&timeline)[..] else {
        panic!("{timeline}");
    };
    // Away for a second: 100 to 200 frames of 44 quanta, 25 to 50 of 140, 6 to
    // 13 of 512, with what a round more brings.
    let most = longest(&timeline, 31);
    assert!((4400..=9000).contains(&most), "{timeline}");
    assert!(tick_of(&timeline, "has caught up") > tick_of(&timeline, "waits longest"));
}

#[test]
fn what_a_floor_told_last_holds_while_it_is_dark() {
    // Its fibre is cut at 1 s, the night ends at 2.2 s, and 31 waits from the
    // rush on, which its windows take until 1.1 s or so.
    let asked = Options {
        busy: Some(31),
        ticks: TICKS_PER_SECOND * 11 / 5,
        ..options(Scenario::Dark)
    };
    let (_, timeline) = night(&asked);
    let told = closing(&timeline, "Waits longest at the end: floor 31, ");
    let (_, at) = told.rsplit_once(" at ").unwrap();
    let at: f64 = at.trim_end_matches(" s.").parse().unwrap();
    assert!(at > 0.9 && at < 1.001, "{timeline}");
    let row = timeline.lines().rfind(|line| line.starts_with("   31  "));
    assert!(row.unwrap().contains(told.trim_end_matches('.')));
}

#[test]
fn what_came_to_the_boxes_went_or_waits() {
    for scenario in [Scenario::Quiet, Scenario::Storm, Scenario::Dark] {
        let asked = Options {
            busy: Some(0),
            ticks: 2 * TICKS_PER_SECOND,
            ..options(scenario)
        };
        let (_, timeline) = night(&asked);
        let told = closing(&timeline, "Data frames: ");
        let words: Vec<&str> = told.split(' ').collect();
        let [came, "came", "to", "the", "boxes,", went, "went,", waiting, "wait."] = words[..]
        else {
            panic!("{told}");
        };
        let [came, went, waiting] = [came, went, waiting].map(number);
        assert_eq!(came, went + waiting);
        // In a second a box gets 100 to 200, 25 to 50 and 6 to 13 frames.
        assert!((2 * 3 * 131..=2 * 3 * 265).contains(&came), "{told}");
        assert!(waiting < went, "{told}");
    }
}

#[test]
fn who_never_told_is_not_said_to_have_nothing() {
    let nothing_arrives = Options {
        loss: 1000,
        ticks: TICKS_PER_SECOND,
        ..options(Scenario::Storm)
    };
    let (_, timeline) = night(&nothing_arrives);
    closing(&timeline, "No box has told of its queues.");
    assert_eq!(timeline.matches("never told").count(), 2 * 3);
}

#[test]
fn no_table_is_wider_than_a_hundred_columns() {
    let (_, timeline) = night(&options(Scenario::Dark));
    let tables = timeline.split("\n\n").skip(1);
    assert_eq!(tables.clone().count(), 3);
    let lines = tables.flat_map(str::lines);
    assert!({ lines }.all(|line| line.len() <= 100), "{timeline}");
}

/// One terminal for the timeline and the progress.
#[derive(Default)]
struct Terminal(RefCell<Vec<u8>>);

impl Write for &Terminal {
    fn write(&mut self, octets: &[u8]) -> io::Result<usize> {
        self.0.borrow_mut().write(octets)
    }

    fn flush(&mut self) -> io::Result<()> {
        Ok(())
    }
}

impl Terminal {
    /// What stands on it when all is written: what follows a carriage return
    /// is written over what was there.
    fn screen(&self) -> String {
        let written = String::from_utf8(self.0.borrow().clone()).unwrap();
        let line = |line: &str| {
            let mut shown = Vec::new();
            for part in line.split('\r') {
                let part: Vec<char> = part.chars().collect();
                let kept = part.len().min(shown.len());
                shown.splice(..kept, part);
            }
            let shown: String = shown.into_iter().collect();
            shown.trim_end().to_owned() + "\n"
        };
        written.lines().map(line).collect()
    }
}

#[test]
fn progress_leaves_no_trace_between_lines() {
    let options = Options {
        boxes: 1,
        loss: 400,
        ticks: 3_500_000,
        every_tick: true,
        ..options(Scenario::Storm)
    };
    let terminal = Terminal::default();
    let line = ProgressLine::on(&terminal);
    let progress = Progress::new(line, options.ticks, Duration::ZERO);
    let core = core_named("plain").unwrap();
    run(&*core, &options, &terminal, progress).unwrap();
    let written = String::from_utf8(terminal.0.borrow().clone()).unwrap();
    assert!(written.contains("\r  0.01 of 0.06 s simulated "));
    let (_, alone) = night(&options);
    let alone: String = { alone.lines() }
        .map(|line| line.trim_end().to_owned() + "\n")
        .collect();
    assert_eq!(terminal.screen(), alone);
}
