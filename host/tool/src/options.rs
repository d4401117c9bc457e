//! Options of a command line: `--name`, `--name VALUE` and `--name=VALUE`.

use std::io::{self, Write};
use std::ops::RangeInclusive;
use std::process::ExitCode;
use std::slice::Iter;

/// Exit status of a program whose command line can't be followed.
const BAD_USAGE: u8 = 2;

/// A program that has options and no commands.
pub struct Program {
    /// By which it speaks.
    pub name: &'static str,
    /// Its help.
    pub help: &'static str,
    /// The command that prints it.
    pub help_command: &'static str,
}

impl Program {
    /// Prints the help where a word asks for it, or else runs what the options
    /// ask for.
    pub fn start<T>(
        &self,
        asked: fn(Options<'_>) -> Result<T, String>,
        run: fn(T) -> ExitCode,
    ) -> ExitCode {
        let words: Vec<String> = std::env::args().skip(1).collect();
        if asks_for_help(&words) {
            // Whoever reads it may stop when it has seen enough.
            let _ = io::stdout().write_all(self.help.as_bytes());
            return ExitCode::SUCCESS;
        }
        match asked(Options::new(&words)) {
            Ok(asked) => run(asked),
            Err(complaint) => refuse(self.name, &complaint, self.help_command),
        }
    }
}

/// Whether one of the words asks for help.
pub fn asks_for_help(words: &[String]) -> bool {
    words.iter().any(|word| word == "--help" || word == "-h")
}

/// Ends a program whose command line can't be followed: a line with the fault,
/// and one with the command that prints the help.
pub fn refuse(program: &str, complaint: &str, help: &str) -> ExitCode {
    eprintln!("{program}: {complaint}\n{program}: {help} tells what there is");
    ExitCode::from(BAD_USAGE)
}

/// The options of a command line, taken one after the other.
pub struct Options<'a> {
    words: Iter<'a, String>,
    /// The option at hand.
    name: &'a str,
    /// What stands behind its `=`, until it is asked for.
    value: Option<&'a str>,
}

impl<'a> Options<'a> {
    /// The options that these words are.
    pub fn new(words: &'a [String]) -> Options<'a> {
        Options {
            words: words.iter(),
            name: "",
            value: None,
        }
    }

    /// The next option's name with its dashes, `None` behind the last. Fails
    /// where the one at hand was given a value that nobody has asked for.
    pub fn option(&mut self) -> Result<Option<&'a str>, String> {
        if self.value.is_some() {
            return Err(format!("{} takes no value", self.name));
        }
        let Some(word) = self.words.next() else {
            return Ok(None);
        };
        (self.name, self.value) = match word.split_once('=') {
            Some((name, value)) if name.starts_with("--") => (name, Some(value)),
            _ => (word.as_str(), None),
        };
        Ok(Some(self.name))
    }

    /// What the option at hand is given: what stands behind its `=`, or the
    /// next word.
    pub fn value(&mut self) -> Option<&'a str> {
        let behind = self.value.take();
        behind.or_else(|| self.words.next().map(String::as_str))
    }

    /// The one of these that the option at hand is given the name of.
    pub fn chosen<T: Copy>(&mut self, all: &[(&str, T)]) -> Result<T, String> {
        let named = self.value();
        let chosen = all.iter().find(|(name, _)| named == Some(name));
        chosen.map(|(_, one)| *one).ok_or_else(|| {
            let names: Vec<&str> = all.iter().map(|(name, _)| *name).collect();
            format!("{} needs one of: {}", self.name, names.join(", "))
        })
    }

    /// The number that the option at hand is given.
    pub fn number(&mut self) -> Result<u64, String> {
        let number = self.value().and_then(|word| word.parse().ok());
        number.ok_or_else(|| format!("{} needs a number", self.name))
    }

    /// The number that the option at hand is given, if it is one of these.
    pub fn number_in(&mut self, range: RangeInclusive<u64>) -> Result<u64, String> {
        let number = self.number().ok();
        number
            .filter(|number| range.contains(number))
            .ok_or_else(|| {
                let (name, low, high) = (self.name, range.start(), range.end());
                format!("{name} needs a number from {low} to {high}")
            })
    }

    /// The complaint that the program has no such option as the one at hand.
    pub fn unknown(&self) -> String {
        match self.name.starts_with('-') {
            true => format!("unknown option `{}`", self.name),
            false => format!("`{}` is no option", self.name),
        }
    }
}

#[cfg(test)]
mod tests {
    use super::*;

    fn words(line: &str) -> Vec<String> {
        line.split(' ').map(str::to_owned).collect()
    }

    #[test]
    fn a_value_is_the_next_word_or_stands_behind_the_equals_sign() {
        for line in ["--boxes 4 --plain", "--boxes=4 --plain"] {
            let words = words(line);
            let mut options = Options::new(&words);
            assert_eq!(options.option(), Ok(Some("--boxes")));
            assert_eq!(options.number_in(1..=64), Ok(4));
            assert_eq!(options.option(), Ok(Some("--plain")));
            assert_eq!(options.option(), Ok(None));
        }
    }

    #[test]
    fn a_value_may_have_an_equals_sign_or_be_empty() {
        let words = words("--only=a=b --only=");
        let mut options = Options::new(&words);
        assert_eq!(options.option(), Ok(Some("--only")));
        assert_eq!(options.value(), Some("a=b"));
        assert_eq!(options.option(), Ok(Some("--only")));
        assert_eq!(options.value(), Some(""));
        assert_eq!(options.option(), Ok(None));
    }

    #[test]
    fn a_value_that_nobody_asked_for_is_refused() {
        let words = words("--plain=1");
        let mut options = Options::new(&words);
        assert_eq!(options.option(), Ok(Some("--plain")));
        let refused = Err("--plain takes no value".to_owned());
        assert_eq!(options.option(), refused);
    }

    #[test]
    fn numbers_keep_their_range() {
        for value in ["0", "65", "x", "-1", ""] {
            let words = words(&format!("--boxes={value}"));
            let mut options = Options::new(&words);
            options.option().unwrap();
            let refused = Err("--boxes needs a number from 1 to 64".to_owned());
            assert_eq!(options.number_in(1..=64), refused);
        }
    }
}
