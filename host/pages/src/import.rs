//! `use` lines.

use crate::token::Token;

/// What a `use` line brings in.
#[derive(Clone, Debug, PartialEq, Eq)]
pub struct Import {
    /// Its line, from 1.
    pub line: usize,
    /// The module.
    pub path: Vec<String>,
    /// The names that it brings, each with the one that it is given here.
    pub names: Vec<(String, String)>,
    /// The module's name here, where the module itself is brought.
    pub module: Option<String>,
    /// Whether it passes on what it brings.
    pub passed_on: bool,
}

impl Import {
    /// Reads the words of a line.
    pub fn parse(tokens: &[Token]) -> Option<Import> {
        let begins = tokens.iter().position(|token| token.text == "use")?;
        let passed_on = tokens[..begins].iter().any(|token| token.text == "pub");
        let words: Vec<&str> = tokens[begins + 1..]
            .iter()
            .map(|token| token.text.as_str())
            .collect();
        let brace = words.iter().position(|&word| word == "{");
        let renamed = words.iter().position(|&word| word == "as");
        let stop = brace.or(renamed).unwrap_or(words.len());
        let path = words[..stop].iter().filter(|&&word| word != ".");
        let path: Vec<String> = path.map(|word| word.to_string()).collect();
        let last = words.last()?.to_string();
        Some(Import {
            line: tokens[0].line,
            names: brace.map(|at| names(&words[at + 1..])).unwrap_or_default(),
            module: brace.is_none().then_some(last),
            path,
            passed_on,
        })
    }
}

/// The names between braces: `a, b as c }`.
fn names(words: &[&str]) -> Vec<(String, String)> {
    let ends = words
        .iter()
        .position(|&word| word == "}")
        .unwrap_or(words.len());
    let parts = words[..ends]
        .split(|&word| word == ",")
        .filter(|part| !part.is_empty());
    parts
        .map(|part| (part[0].to_string(), part[part.len() - 1].to_string()))
        .collect()
}

#[cfg(test)]
mod tests {
    use super::*;
    use crate::token::line_tokens;

    fn read(text: &str) -> Import {
        Import::parse(&line_tokens(text, 1)).expect("a use line")
    }

    #[test]
    fn names_and_new_names() {
        let import = read("use Rattle.clock.specs.Counts.{next_of, ◌≡◌, off as stopped}");
        assert_eq!(import.path, ["Rattle", "clock", "specs", "Counts"]);
        let names: Vec<(&str, &str)> = import
            .names
            .iter()
            .map(|(a, b)| (a.as_str(), b.as_str()))
            .collect();
        assert_eq!(
            names,
            [("next_of", "next_of"), ("◌≡◌", "◌≡◌"), ("off", "stopped")]
        );
        assert_eq!(import.module, None);
        assert!(!import.passed_on);
    }

    #[test]
    fn modules_and_what_is_passed_on() {
        assert_eq!(
            read("use a.b.Calls as face").module.as_deref(),
            Some("face")
        );
        assert_eq!(read("use a.b.Calls as face").path, ["a", "b", "Calls"]);
        assert_eq!(read("use a.b.Calls").module.as_deref(), Some("Calls"));
        assert!(read("unfoldable pub use a.B.{c}").passed_on);
    }
}
