//! Code in Rattle: its types, and what its functions promise.

use crate::import::Import;
use crate::token::{depths, line_tokens, Token};
use std::collections::BTreeSet;

/// A struct or an enum.
#[derive(Clone, Debug, PartialEq, Eq)]
pub struct Declared {
    /// Its name.
    pub name: String,
    /// How many lines it has, comments left out.
    pub lines: usize,
    /// The words of its fields.
    pub words: BTreeSet<String>,
}

/// A function.
#[derive(Clone, Debug)]
pub struct Function {
    /// Its name, behind that of its type.
    pub name: String,
    /// Its line.
    pub line: usize,
    /// Whether other crates may call it.
    pub public: bool,
    /// The words of its contract.
    pub contract: Vec<Token>,
    /// What stands for itself there: its parameters and its result.
    pub parameters: BTreeSet<String>,
}

/// A file of code.
#[derive(Clone, Debug, Default)]
pub struct Source {
    /// What its contracts bring in.
    pub imports: Vec<Import>,
    /// What its code brings in: crate and name.
    pub uses: Vec<(String, String)>,
    /// Its types.
    pub types: Vec<Declared>,
    /// Its functions.
    pub functions: Vec<Function>,
    /// Its constants, behind the name of their type.
    pub constants: Vec<String>,
}

impl Source {
    /// Reads a file of code.
    pub fn parse(text: &str) -> Source {
        let mut source = Source::default();
        let mut tokens = Vec::new();
        let mut lines = text.lines().enumerate().map(|(at, line)| {
            let bare = line.split("//").next().unwrap_or("");
            (at + 1, bare)
        });
        while let Some((at, bare)) = lines.next() {
            let words = bare.trim();
            let brings = ["ghost use ", "use ", "pub use "];
            if !brings.iter().any(|begin| words.starts_with(begin)) {
                tokens.extend(line_tokens(bare, at));
                continue;
            }
            let mut said = line_tokens(bare, at);
            while !said.iter().any(|token| token.text == ";") {
                let Some((at, bare)) = lines.next() else {
                    break;
                };
                said.extend(line_tokens(bare, at));
            }
            said.retain(|token| token.text != ";");
            match words.starts_with("ghost") {
                true => source.imports.extend(Import::parse(&said)),
                false => source.uses.extend(brought(&said)),
            }
        }
        source.declarations(&tokens);
        source
    }

    /// Whether it declares a type, a constant or a function of this name, with or without its type's.
    pub fn names(&self, name: &str) -> bool {
        let functions = self.functions.iter().map(|function| &function.name);
        let mut behind = functions.chain(&self.constants);
        let short = |whole: &String| whole == name || whole.rsplit("::").next() == Some(name);
        behind.any(short) || self.types.iter().any(|of| of.name == name)
    }

    fn declarations(&mut self, tokens: &[Token]) {
        let depths = depths(tokens);
        let mut owner = String::new();
        for at in 0..tokens.len() {
            let next = tokens.get(at + 1).map_or("", |token| token.text.as_str());
            match tokens[at].text.as_str() {
                "}" if depths[at] == 0 => owner.clear(),
                "impl" if depths[at] == 0 => owner = format!("{next}::"),
                "struct" | "enum" => self.types.push(declared(&tokens[at..])),
                "const" => self
                    .constants
                    .push(format!("{owner}{}", next.trim_end_matches(':'))),
                "fn" => {
                    let line = tokens[..at]
                        .iter()
                        .rev()
                        .take_while(|token| token.line == tokens[at].line);
                    let public = line.into_iter().any(|token| token.text == "pub");
                    self.functions.push(function(&tokens[at..], &owner, public));
                }
                _ => {}
            }
        }
    }
}

/// `use other::Name`, `use other::{Name, part::Other}`: the crate and each last name.
fn brought(tokens: &[Token]) -> Vec<(String, String)> {
    let words = tokens.iter().map(|token| token.text.as_str());
    let words: Vec<&str> = words
        .skip_while(|&word| word != "use")
        .skip(1)
        .filter(|word| !matches!(*word, "{" | "}" | ","))
        .collect();
    let owner = words.first().and_then(|word| word.split("::").next());
    let last = |word: &&str| word.rsplit("::").next().map(str::to_string);
    let names = words.iter().filter_map(last);
    let names = names.filter(|name| !name.is_empty());
    names
        .map(|name| (owner.unwrap_or("").to_string(), name))
        .collect()
}

/// `struct Name { .. }`, `struct Name(..);` or `enum Name { .. }`.
fn declared(tokens: &[Token]) -> Declared {
    let depths = depths(tokens);
    let last = |at: &usize| depths[*at] == 0 && matches!(tokens[*at].text.as_str(), ";" | "}");
    let ends = (1..tokens.len()).find(last).unwrap_or(tokens.len() - 1);
    let inside = &tokens[1..=ends];
    let lines: BTreeSet<usize> = inside.iter().map(|token| token.line).collect();
    let parts = |token: &Token| -> Vec<String> {
        let words = token.text.split(|c: char| !c.is_alphanumeric() && c != '_');
        words.map(str::to_string).collect()
    };
    Declared {
        name: inside[0].text.clone(),
        lines: lines.len(),
        words: inside[1..].iter().flat_map(parts).collect(),
    }
}

/// Whether a word begins a clause; one that says something of memory has a star.
fn begins_clause(token: &Token) -> bool {
    matches!(token.text.trim_end_matches('*'), "ensures" | "requires")
}

/// `fn name(..) -> .. requires { .. } ensures { .. } { .. }`; a clause may have a name before its brace.
fn function(tokens: &[Token], owner: &str, public: bool) -> Function {
    let name = tokens[1].text.split('<').next().unwrap_or("");
    let depths = depths(tokens);
    // A clause's own words: what begins it, and its name.
    let mut of_clause = vec![false; tokens.len()];
    for at in (1..tokens.len()).filter(|&at| begins_clause(&tokens[at])) {
        let brace = tokens[at..].iter().position(|token| token.text == "{");
        let named = brace.map_or(at, |brace| at + brace);
        of_clause[at..named].fill(true);
    }
    let body = (1..tokens.len())
        .find(|&at| depths[at] == 0 && tokens[at].text == "{" && !of_clause[at - 1]);
    let ends = body.unwrap_or(tokens.len());
    let contract = (1..ends).find(|&at| of_clause[at]).unwrap_or(ends);
    let parameters = tokens[1..contract]
        .iter()
        .filter_map(|token| token.text.strip_suffix(':'));
    let words = (contract..ends).filter(|&at| !of_clause[at]);
    Function {
        name: format!("{owner}{name}"),
        line: tokens[0].line,
        public,
        contract: words.map(|at| tokens[at].clone()).collect(),
        parameters: parameters
            .chain(["result", "self"])
            .map(str::to_string)
            .collect(),
    }
}

#[cfg(test)]
mod tests {
    use super::*;

    const TEXT: &str = "\
ghost use a.Prelude.{◌≡◌};
ghost use Rattle.clock.specs.Counts.{next_of as next};

use clock::{Count as Other, Timer};
use frame::{
    Address,
    words::Word,
};
use laws;

// A count.
pub struct Count(pub u32);

pub enum Event {
    // nothing
    Nothing,
    At(usize, Address),
}

impl Count {
    pub const TURN: i64 = 1 << 32;

    pub fn next(self, by: u32) -> Count
        ensures { result ≡ next self by }
    {
        Count(self.0 + by)
    }

    fn hidden(self) -> Count
        ensures { result ≡ self }
    {
        self
    }
}

pub extern \"C\" fn out(
    block: &mut [u64],
) -> u8
    requires { true }
    ensures* same { block.new ≡ block.old }
    ensures answer { result ≡ zero }
{
    0
}
";

    #[test]
    fn types_have_lines_and_words() {
        let source = Source::parse(TEXT);
        let found: Vec<(&str, usize)> = source
            .types
            .iter()
            .map(|of| (of.name.as_str(), of.lines))
            .collect();
        assert_eq!(found, [("Count", 1), ("Event", 4)]);
        assert!(source.types[1].words.contains("Address"));
        let uses: Vec<(&str, &str)> = source
            .uses
            .iter()
            .map(|(owner, name)| (owner.as_str(), name.as_str()))
            .collect();
        for name in ["Address", "Word"] {
            assert!(uses.contains(&("frame", name)), "{name}");
        }
        assert!(uses.contains(&("clock", "Timer")));
    }

    #[test]
    fn functions_have_contracts() {
        let source = Source::parse(TEXT);
        let found: Vec<(&str, bool)> = source
            .functions
            .iter()
            .map(|of| (of.name.as_str(), of.public))
            .collect();
        assert_eq!(
            found,
            [
                ("Count::next", true),
                ("Count::hidden", false),
                ("out", true)
            ]
        );
        assert!(source.functions[0]
            .contract
            .iter()
            .any(|token| token.text == "next"));
        assert!(!source.functions[0]
            .contract
            .iter()
            .any(|token| token.text == "Count"));
        assert!(source.functions[0].parameters.contains("by"));
        let out = &source.functions[2].contract;
        let says = |word| out.iter().any(|token| token.text == word);
        assert!(says("true") && says("block") && says("zero"));
        assert!(!says("same") && !says("answer") && !says("0"));
        assert_eq!(source.imports[1].names[0].1, "next");
    }

    #[test]
    fn names_are_found() {
        let source = Source::parse(TEXT);
        for name in ["Count", "Count::next", "next", "TURN", "Count::TURN", "out"] {
            assert!(source.names(name), "{name}");
        }
        assert!(!source.names("Address"));
        assert!(!source.names("Event::Nothing"));
    }
}
