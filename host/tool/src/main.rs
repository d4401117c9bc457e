//! `crustnewt`: the desk's program.

mod usage;

use crustnewt_tool::options::refuse;
use crustnewt_tool::progress::ProgressLine;
use crustnewt_tool::{night, replay};
use std::io::{self, Write};
use std::process::ExitCode;
use std::time::Duration;
use usage::{Command, Usage};

/// Time between two lines of progress.
const BETWEEN_LINES: Duration = Duration::from_millis(250);

fn main() -> ExitCode {
    let words: Vec<String> = std::env::args().skip(1).collect();
    match usage::command(&words) {
        Ok(command) => finish(run(command)),
        Err(Usage { complaint, help }) => refuse("crustnewt", &complaint, help),
    }
}

/// Runs a command; true if all went well.
fn run(command: Command) -> io::Result<bool> {
    match command {
        Command::Print(text) => {
            io::stdout().write_all(text.as_bytes())?;
            Ok(true)
        }
        Command::Replay(core) => {
            replay::replay(&*core, io::stdin().lock(), io::stdout().lock())?;
            Ok(true)
        }
        Command::Night(core, options) => {
            let line = ProgressLine::at_terminal();
            let progress = night::Progress::new(line, options.ticks, BETWEEN_LINES);
            night::run(&*core, &options, io::stdout().lock(), progress)
        }
    }
}

fn finish(outcome: io::Result<bool>) -> ExitCode {
    match outcome {
        Ok(true) => ExitCode::SUCCESS,
        Ok(false) => ExitCode::FAILURE,
        Err(error) => {
            // Whoever reads the output may stop when it has seen enough.
            if error.kind() != io::ErrorKind::BrokenPipe {
                eprintln!("crustnewt: {error}");
            }
            ExitCode::FAILURE
        }
    }
}
