//! One script on two cores.

use crate::singly::{self, SOME};
use crustnewt_core::Core;
use crustnewt_tool::replay::{parse, Call, Script, Stage};
use plain::{FloorBox, Head, Link};
use std::fmt;
use std::panic::{catch_unwind, AssertUnwindSafe};

/// How two cores differ, and after which line.
#[derive(Clone, Debug, Default, PartialEq, Eq)]
pub struct Difference {
    /// Index of the line in the script.
    pub line: usize,
    /// What the first core had.
    pub first: String,
    /// What the second core had.
    pub second: String,
}

/// Characters shown before and after the place where two answers part.
const SHOWN_BEFORE: usize = 100;
const SHOWN: usize = 400;

impl fmt::Display for Difference {
    fn fmt(&self, f: &mut fmt::Formatter<'_>) -> fmt::Result {
        let both = self.first.chars().zip(self.second.chars());
        let common = both.take_while(|(first, second)| first == second).count();
        let around = |text: &str| -> String {
            let from = common.saturating_sub(SHOWN_BEFORE);
            let shown = text.chars().skip(from).take(SHOWN);
            shown.map(|c| if c == '\n' { '|' } else { c }).collect()
        };
        writeln!(f, "line {}", self.line + 1)?;
        writeln!(f, "# first:  {}", around(&self.first))?;
        write!(f, "# second: {}", around(&self.second))
    }
}

/// Plays a script on both; the first difference, if there is one. A panic is
/// one: a core ends in it rather than guess what a word means.
pub fn compare(first: &dyn Core, second: &dyn Core, script: &[String]) -> Option<Difference> {
    compare_up_to(first, second, script, SOME)
}

/// The same with so many single ticks of each advance.
pub(crate) fn compare_up_to(
    first: &dyn Core,
    second: &dyn Core,
    script: &[String],
    most: u64,
) -> Option<Difference> {
    let mut line = 0;
    let play = AssertUnwindSafe(|| compare_lines([first, second], script, most, &mut line));
    catch_unwind(play).unwrap_or_else(|_| {
        let first = "one of the cores panicked".to_owned();
        Some(Difference {
            line,
            first,
            second: String::new(),
        })
    })
}

/// Compares line by line, and tells which it is at.
fn compare_lines(
    cores: [&dyn Core; 2],
    script: &[String],
    most: u64,
    at: &mut usize,
) -> Option<Difference> {
    let mut stages = cores.map(Stage::new);
    for (line, text) in script.iter().enumerate() {
        *at = line;
        let Script::Call(call) = parse(text.as_bytes()) else {
            continue;
        };
        let differ = singly::hold(cores, &stages[0], &call, most)
            .or_else(|| compare_call(&mut stages, &call));
        if let Some([first, second]) = differ {
            return Some(Difference {
                line,
                first,
                second,
            });
        }
    }
    None
}

/// Makes one call on both; what they said or hold, if it isn't the same.
fn compare_call(stages: &mut [Stage<'_>; 2], call: &Call) -> Option<[String; 2]> {
    let said = stages.each_mut().map(|stage| play(stage, call));
    if said[0] != said[1] {
        return Some(said);
    }
    let held = stages.each_ref().map(Held::by);
    (held[0] != held[1]).then(|| held.map(|held| format!("{held:?}")))
}

/// Makes one call and hands back what it printed.
fn play(stage: &mut Stage<'_>, call: &Call) -> String {
    let mut said = Vec::new();
    // Writing into a vector doesn't fail, and a line that names a missing link
    // is the same line for both.
    let _ = stage.play(call, &mut said);
    String::from_utf8_lossy(&said).into_owned()
}

/// Everything that a stage holds, printed or not.
#[derive(Debug, PartialEq, Eq)]
struct Held<'a> {
    floor_box: FloorBox,
    head: Head,
    links: Vec<Link>,
    output: &'a [u8],
    /// How long box and head say that they are silent.
    silent: [u64; 2],
}

impl<'a> Held<'a> {
    fn by(stage: &'a Stage<'_>) -> Held<'a> {
        Held {
            floor_box: stage.floor_box.state(),
            head: stage.head.state(),
            links: (0..stage.head.links())
                .map(|place| stage.head.link(place))
                .collect(),
            output: stage.head.output(),
            silent: [stage.floor_box.ticks_until(), stage.head.ticks_until()],
        }
    }
}
