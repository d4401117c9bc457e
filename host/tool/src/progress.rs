//! How far a program is, for whoever waits at a terminal.

use std::io::{self, IsTerminal, Write};

/// A line that is written over again and again, and taken away before anything
/// else is written.
pub struct ProgressLine<'a> {
    to: Option<Box<dyn Write + 'a>>,
    /// Columns that it takes now.
    columns: usize,
}

impl<'a> ProgressLine<'a> {
    /// On standard error, where that is a terminal.
    pub fn at_terminal() -> ProgressLine<'static> {
        let stderr = io::stderr();
        match stderr.is_terminal() {
            true => ProgressLine::on(stderr),
            false => ProgressLine::nowhere(),
        }
    }

    /// On this, whatever it is.
    pub fn on(to: impl Write + 'a) -> ProgressLine<'a> {
        ProgressLine {
            to: Some(Box::new(to)),
            columns: 0,
        }
    }

    /// Nobody waits.
    pub fn nowhere() -> ProgressLine<'a> {
        ProgressLine {
            to: None,
            columns: 0,
        }
    }

    /// Whether somebody can see it.
    pub fn is_seen(&self) -> bool {
        self.to.is_some()
    }

    /// Shows this, which has no fewer columns than what was shown before it.
    pub fn show(&mut self, text: &str) {
        let line = format!("\r  {text} ");
        self.columns = line.len();
        self.write(&line);
    }

    /// Takes the line away.
    pub fn clear(&mut self) {
        if self.columns > 0 {
            let blank = format!("\r{:1$}\r", "", self.columns);
            self.columns = 0;
            self.write(&blank);
        }
    }

    fn write(&mut self, line: &str) {
        if let Some(to) = &mut self.to {
            // A line that can't be shown is no reason to stop.
            let _ = to.write_all(line.as_bytes()).and_then(|()| to.flush());
        }
    }
}

impl Drop for ProgressLine<'_> {
    fn drop(&mut self) {
        self.clear();
    }
}
