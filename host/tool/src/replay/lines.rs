//! Lines of bounded length from an input of any length.

use std::io::{self, BufRead, BufReader};

/// Longest line, without its newline.
const LONGEST_LINE: usize = 4096;

/// What reading a line gave.
#[derive(Debug, PartialEq, Eq)]
pub(super) enum Read {
    /// A line, without its newline.
    Line,
    /// A line longer than the language has; it was skipped.
    TooLong,
    /// No line is left.
    End,
}

/// Lines of an input; no more than one longest line is ever kept.
pub(super) struct Lines<R> {
    input: BufReader<R>,
}

impl<R: io::Read> Lines<R> {
    pub(super) fn new(input: BufReader<R>) -> Lines<R> {
        Lines { input }
    }

    /// Whether reading on would ask the input for more.
    pub(super) fn would_wait(&self) -> bool {
        self.input.buffer().is_empty()
    }

    /// Reads the next line into `line`.
    pub(super) fn read(&mut self, line: &mut Vec<u8>) -> io::Result<Read> {
        line.clear();
        let (mut begun, mut too_long) = (false, false);
        loop {
            let available = match self.input.fill_buf() {
                Err(error) if error.kind() == io::ErrorKind::Interrupted => continue,
                other => other?,
            };
            let newline = available.iter().position(|&octet| octet == b'\n');
            let part = &available[..newline.unwrap_or(available.len())];
            too_long |= line.len() + part.len() > LONGEST_LINE;
            if !too_long {
                line.extend_from_slice(part);
            }
            let ended = newline.is_some() || available.is_empty();
            begun |= !available.is_empty();
            let used = part.len() + usize::from(newline.is_some());
            self.input.consume(used);
            if ended {
                return Ok(match (begun, too_long) {
                    (false, _) => Read::End,
                    (true, true) => Read::TooLong,
                    (true, false) => Read::Line,
                });
            }
        }
    }
}

#[cfg(test)]
mod tests {
    use super::*;

    /// All lines, through a buffer so small that every line crosses it.
    fn all(text: &[u8]) -> Vec<(Read, usize)> {
        let mut lines = Lines::new(BufReader::with_capacity(3, text));
        let mut line = Vec::new();
        let mut all = Vec::new();
        loop {
            match lines.read(&mut line).unwrap() {
                Read::End => return all,
                read => all.push((read, line.len())),
            }
        }
    }

    #[test]
    fn a_last_line_may_lack_its_newline() {
        assert_eq!(all(b""), []);
        assert_eq!(all(b"\n"), [(Read::Line, 0)]);
        assert_eq!(
            all(b"abcd\n\nxy"),
            [(Read::Line, 4), (Read::Line, 0), (Read::Line, 2)]
        );
    }

    #[test]
    fn lines_over_their_longest_are_skipped() {
        let text = [vec![b'a'; 4096], vec![b'b'; 4097], b"c".to_vec()].join(&b'\n');
        let lengths = all(&text);
        assert_eq!(lengths[0], (Read::Line, 4096));
        assert_eq!(lengths[1].0, Read::TooLong);
        assert_eq!(lengths[2], (Read::Line, 1));
    }
}
