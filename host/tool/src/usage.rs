//! The command line: what is asked for.

use crustnewt_core::Core;
use crustnewt_tool::cores::{core_named, default_core};
use crustnewt_tool::night::{self, Scenario};
use crustnewt_tool::options::{asks_for_help, Options};
use plain::numbers::TICKS_PER_SECOND;

/// What is asked for.
pub enum Command {
    /// Print this text.
    Print(&'static str),
    /// Play a script on this core.
    Replay(Box<dyn Core>),
    /// Simulate a night on this core.
    Night(Box<dyn Core>, night::Options),
}

/// Why the command line can't be followed.
pub struct Usage {
    /// What is wrong.
    pub complaint: String,
    /// The command that prints the help in question.
    pub help: &'static str,
}

/// A help: its text, and the command that prints it.
struct Help {
    text: &'static str,
    command: &'static str,
}

const HELP: Help = Help {
    text: include_str!("../help/crustnewt.txt"),
    command: "`crustnewt --help`",
};

const REPLAY: Help = Help {
    text: include_str!("../help/replay.txt"),
    command: "`crustnewt replay --help`",
};

/// Who came by `./night` hasn't the program on the PATH.
const NIGHT: Help = Help {
    text: include_str!("../help/night.txt"),
    command: "`crustnewt night --help` or `./night --help`",
};

const VERSION: &str = concat!("crustnewt ", env!("CARGO_PKG_VERSION"), "\n");

impl Help {
    fn refuse(&self, complaint: impl Into<String>) -> Usage {
        Usage {
            complaint: complaint.into(),
            help: self.command,
        }
    }
}

/// The command that these words ask for.
pub fn command(words: &[String]) -> Result<Command, Usage> {
    let Some((name, rest)) = words.split_first() else {
        return Err(HELP.refuse("no command given"));
    };
    match name.as_str() {
        "help" | "--help" | "-h" => help(rest),
        "--version" | "-V" => version(rest),
        "replay" => asked(&REPLAY, rest, replay),
        "night" => asked(&NIGHT, rest, night),
        _ => Err(HELP.refuse(format!("unknown command `{name}`"))),
    }
}

fn help(words: &[String]) -> Result<Command, Usage> {
    let words: Vec<&str> = words.iter().map(String::as_str).collect();
    let help = match words[..] {
        [] => HELP,
        ["replay"] => REPLAY,
        ["night"] => NIGHT,
        _ => return Err(HELP.refuse(format!("no help for `{}`", words.join(" ")))),
    };
    Ok(Command::Print(help.text))
}

fn version(words: &[String]) -> Result<Command, Usage> {
    match words.first() {
        None => Ok(Command::Print(VERSION)),
        Some(word) => Err(HELP.refuse(format!("unknown option `{word}`"))),
    }
}

/// A command with its options, or its help where a word asks for that.
fn asked(
    help: &Help,
    words: &[String],
    command: fn(Options<'_>) -> Result<Command, String>,
) -> Result<Command, Usage> {
    if asks_for_help(words) {
        return Ok(Command::Print(help.text));
    }
    command(Options::new(words)).map_err(|complaint| help.refuse(complaint))
}

fn replay(mut options: Options<'_>) -> Result<Command, String> {
    let mut core = default_core();
    while let Some(name) = options.option()? {
        core = core_flag(name, &options)?;
    }
    Ok(Command::Replay(core))
}

fn night(mut options: Options<'_>) -> Result<Command, String> {
    let mut core = default_core();
    let mut asked = Asked::default();
    while let Some(name) = options.option()? {
        match name {
            "--scenario" => asked.scenario = options.chosen(&Scenario::ALL)?,
            "--boxes" => asked.boxes = options.number_in(1..=64)?,
            "--delay" => asked.delay = options.number_in(1..=50_000)?,
            "--loss" => asked.loss = Some(options.number_in(0..=1000)?),
            "--seed" => asked.seed = options.number()?,
            "--busy" => asked.busy = Some(options.number_in(0..=64)? as u32),
            "--seconds" => asked.seconds = Some(options.number_in(1..=3600)?),
            "--every-tick" => asked.every_tick = true,
            name => core = core_flag(name, &options)?,
        }
    }
    Ok(Command::Night(core, asked.options()))
}

/// Options of a night before the scenario's own defaults are filled in.
struct Asked {
    scenario: Scenario,
    boxes: u64,
    delay: u64,
    loss: Option<u64>,
    seed: u64,
    busy: Option<u32>,
    seconds: Option<u64>,
    every_tick: bool,
}

impl Default for Asked {
    fn default() -> Asked {
        Asked {
            scenario: Scenario::Floor31,
            boxes: 4,
            delay: 62,
            loss: None,
            seed: 1,
            busy: None,
            seconds: None,
            every_tick: false,
        }
    }
}

impl Asked {
    fn options(self) -> night::Options {
        night::Options {
            scenario: self.scenario,
            boxes: self.boxes as usize,
            delay: self.delay,
            loss: self.loss.unwrap_or(self.scenario.loss()),
            seed: self.seed,
            busy: self.busy,
            ticks: self.seconds.unwrap_or(self.scenario.seconds()) * TICKS_PER_SECOND,
            every_tick: self.every_tick,
        }
    }
}

/// The core that an option is named after.
fn core_flag(name: &str, options: &Options<'_>) -> Result<Box<dyn Core>, String> {
    let core = name.strip_prefix("--").and_then(core_named);
    core.ok_or_else(|| options.unknown())
}
