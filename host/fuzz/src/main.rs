//! `fuzz`: any memory and any octets for every function of the C face.

use crustnewt_tool::options::{Options, Program};
use fuzz::{fuzz, Library, Tally, CALLS};
use std::process::ExitCode;

const PROGRAM: Program = Program {
    name: "fuzz",
    help: include_str!("../help.txt"),
    help_command: "`fuzz --help`",
};

fn main() -> ExitCode {
    PROGRAM.start(asked, run)
}

/// Number of cases and first seed.
fn asked(mut options: Options<'_>) -> Result<(u64, u64), String> {
    let (mut cases, mut seed) = (80_000, 1);
    while let Some(name) = options.option()? {
        match name {
            "--cases" => cases = options.number()?,
            "--seed" => seed = options.number()?,
            _ => return Err(options.unknown()),
        }
    }
    Ok((cases, seed))
}

fn run((cases, seed): (u64, u64)) -> ExitCode {
    match make(cases, seed) {
        Ok(tally) => {
            let calls = cases.saturating_mul(CALLS as u64);
            println!("{calls} calls from seed {seed} on, every promise kept");
            print_tally(&tally);
            ExitCode::SUCCESS
        }
        Err(broken) => {
            println!("{broken}");
            ExitCode::FAILURE
        }
    }
}

/// Makes all cases; how often each number was answered, or what is wrong.
fn make(cases: u64, seed: u64) -> Result<Tally, String> {
    let mut tally = [0; 256];
    for case in 0..cases {
        fuzz(&Library, seed.wrapping_add(case), &mut tally)?;
    }
    Ok(tally)
}

fn print_tally(tally: &Tally) {
    let answered = tally.iter().enumerate().filter(|(_, &times)| times > 0);
    let told: Vec<String> = answered
        .map(|(number, times)| format!("{number}: {times}"))
        .collect();
    println!("by number: {}", told.join(", "));
}
