//! `check`: plays cases on two cores and tells where they differ.

use check::{check, check_fixed, compare_wide};
use crustnewt_core::Core;
use crustnewt_tool::cores::CORES;
use crustnewt_tool::numbers::plural;
use crustnewt_tool::options::{Options, Program};
use crustnewt_tool::progress::ProgressLine;
use std::process::ExitCode;
use std::time::{Duration, Instant};

const PROGRAM: Program = Program {
    name: "check",
    help: include_str!("../help.txt"),
    help_command: "`check --help`",
};

/// Cases between two lines of progress at a terminal.
const BETWEEN_LINES: u64 = 1000;

struct Asked {
    limit: Limit,
    seed: u64,
    first: Box<dyn Core>,
    second: Box<dyn Core>,
}

/// When to stop.
enum Limit {
    Cases(u64),
    Time(Duration),
}

impl Limit {
    fn is_reached(&self, played: u64, begun: Instant) -> bool {
        match *self {
            Limit::Cases(cases) => played >= cases,
            Limit::Time(time) => begun.elapsed() >= time,
        }
    }
}

fn main() -> ExitCode {
    PROGRAM.start(asked, run)
}

fn asked(mut options: Options<'_>) -> Result<Asked, String> {
    let (first, last) = (CORES[0].1, CORES[CORES.len() - 1].1);
    let mut asked = Asked {
        limit: Limit::Cases(60_000),
        seed: 1,
        first: first(),
        second: last(),
    };
    while let Some(name) = options.option()? {
        match name {
            "--cases" => asked.limit = Limit::Cases(options.number()?),
            "--soak" => {
                let minutes = options.number()?;
                asked.limit = Limit::Time(Duration::from_secs(minutes.saturating_mul(60)));
            }
            "--seed" => asked.seed = options.number()?,
            "--first" => asked.first = options.chosen(CORES)?(),
            "--second" => asked.second = options.chosen(CORES)?(),
            _ => return Err(options.unknown()),
        }
    }
    Ok(asked)
}

fn run(asked: Asked) -> ExitCode {
    match play(&asked) {
        Ok(told) => {
            println!("{told}");
            ExitCode::SUCCESS
        }
        Err(told) => {
            println!("{told}");
            ExitCode::FAILURE
        }
    }
}

/// Plays all cases; tells how many, or where the cores differ.
fn play(asked: &Asked) -> Result<String, String> {
    let (first, second) = (&*asked.first, &*asked.second);
    let fixed = check_fixed(first, second).map_err(|failure| failure.to_string())?;
    println!("{fixed} fixed cases, no difference");
    let mut line = ProgressLine::at_terminal();
    let begun = Instant::now();
    let mut played = 0;
    while !asked.limit.is_reached(played, begun) {
        let seed = asked.seed.wrapping_add(played);
        if let Some(told) = difference(asked, seed) {
            return Err(told);
        }
        played += 1;
        if played.is_multiple_of(BETWEEN_LINES) {
            line.show(&format!("{played} cases"));
        }
    }
    let (cases, from) = (plural(played, "case", "cases"), asked.seed);
    Ok(format!(
        "{played} {cases} from seed {from} on, no difference"
    ))
}

/// How the cores differ on a seed's case.
fn difference(asked: &Asked, seed: u64) -> Option<String> {
    let (first, second) = (&*asked.first, &*asked.second);
    if let Err(failure) = check(first, second, seed) {
        return Some(failure.to_string());
    }
    let told = compare_wide(first, second, seed)?;
    Some(format!(
        "# seed {seed}: the cores differ when asked directly\n{told}"
    ))
}

#[cfg(test)]
mod tests {
    use super::*;

    fn asked_with(words: &[&str]) -> Result<Asked, String> {
        let words: Vec<String> = words.iter().map(|word| (*word).to_owned()).collect();
        asked(Options::new(&words))
    }

    #[test]
    fn options_are_followed() {
        for words in [
            &["--cases", "2", "--seed", "5", "--first", "plain"][..],
            &["--cases=2", "--seed=5", "--first=plain"],
        ] {
            let asked = asked_with(words).unwrap();
            assert!(matches!(asked.limit, Limit::Cases(2)));
            assert_eq!(asked.seed, 5);
        }
        let soaking = asked_with(&["--soak=2"]).unwrap().limit;
        assert!(matches!(soaking, Limit::Time(time) if time.as_secs() == 120));
    }

    #[test]
    fn wrong_options_are_told() {
        for (word, complaint) in [
            ("--case=1", "unknown option `--case`"),
            ("--cases=x", "--cases needs a number"),
            ("--second=third", "--second needs one of: proved, plain"),
        ] {
            assert_eq!(asked_with(&[word]).err().as_deref(), Some(complaint));
        }
    }

    #[test]
    fn a_case_alone_is_singular() {
        let case = asked_with(&["--cases=1", "--seed=7"]).unwrap();
        let told = play(&case).unwrap();
        assert_eq!(told, "1 case from seed 7 on, no difference");
    }
}
