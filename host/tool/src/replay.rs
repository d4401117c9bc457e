//! The replay language: a script of calls in, what they answered out.

mod lines;
mod parse;
mod print;
mod stage;

use crustnewt_core::Core;
use lines::{Lines, Read};
use std::io::{self, BufReader, BufWriter, Write};

pub use parse::{parse, Call, Script};
pub use print::hex;
pub use stage::Stage;

/// Plays a whole script.
///
/// What was answered is flushed whenever the input has to be waited for, so
/// the replay can also be spoken to line by line.
pub fn replay(core: &dyn Core, input: impl io::Read, output: impl Write) -> io::Result<()> {
    let mut lines = Lines::new(BufReader::new(input));
    let mut output = BufWriter::new(output);
    let mut stage = Stage::new(core);
    let mut line = Vec::new();
    for number in 1_u64.. {
        if lines.would_wait() {
            output.flush()?;
        }
        let known = match lines.read(&mut line)? {
            Read::End => break,
            Read::TooLong => false,
            Read::Line => play_line(&mut stage, &line, &mut output)?,
        };
        if !known {
            writeln!(output, "? {number}")?;
        }
    }
    output.flush()
}

/// Plays one line; false if it isn't of the language.
fn play_line(stage: &mut Stage<'_>, line: &[u8], output: &mut impl Write) -> io::Result<bool> {
    match parse(line) {
        Script::Nothing => Ok(true),
        Script::Unknown => Ok(false),
        Script::Call(call) => stage.play(&call, output),
    }
}
