//! A declaration of a page.

use crate::layout::{Entry, Look};
use crate::token::{depths, line_tokens, Token};
use std::collections::BTreeSet;

/// What a declaration is.
#[derive(Clone, Copy, Debug, Default, PartialEq, Eq)]
pub enum Kind {
    /// A name with a type and clauses.
    #[default]
    Definition,
    /// A record or a data type: all of it is its type.
    Type,
    /// Fields of a value, named by an `open` line: no declaration of its own.
    Open,
}

/// A declaration.
#[derive(Clone, Debug, Default)]
pub struct Item {
    /// Its name.
    pub name: String,
    /// What else it brings: constructors of a data type, names of an `open`.
    pub others: Vec<String>,
    /// Fields of a record.
    pub fields: Vec<String>,
    /// What it is.
    pub kind: Kind,
    /// Whether other pages may name it.
    pub public: bool,
    /// The words of its type.
    pub head: Vec<Token>,
    /// Its clauses, each with its own words.
    pub clauses: Vec<Vec<Token>>,
    /// The blocks around it, by their place in [`Page::sections`].
    pub sections: Vec<usize>,
    /// Its line, comments left out.
    pub line: usize,
    /// How many of its lines are text.
    pub lines: usize,
    /// How many are comments.
    pub comments: usize,
}

impl Item {
    /// Whether it brings this name.
    pub fn declares(&self, name: &str) -> bool {
        self.name == name || self.others.iter().any(|other| other == name)
    }

    /// How many lines its type has.
    pub fn head_lines(&self) -> usize {
        let lines: BTreeSet<usize> = self.head.iter().map(|token| token.line).collect();
        lines.len()
    }

    /// The first word of what its type says behind its last arrow.
    pub fn says(&self) -> &str {
        let depths = depths(&self.head);
        let arrow =
            |at: &usize| depths[*at] == 0 && matches!(self.head[*at].text.as_str(), "→" | ":");
        let last = (0..self.head.len()).rev().find(arrow);
        let first = last.and_then(|at| self.head.get(at + 1));
        first.map_or("", |token| &token.text)
    }

    /// Whether what is defined is itself a type, as a statement is.
    pub fn is_type(&self) -> bool {
        let ends = self
            .head
            .len()
            .checked_sub(2)
            .map(|at| self.head[at].text.as_str());
        self.kind == Kind::Type || ends == Some("Type")
    }
}

fn item(entry: &Entry, around: &[usize]) -> Item {
    Item {
        sections: around.to_vec(),
        line: entry.number(),
        lines: entry.count(Look::Text),
        comments: entry.count(Look::Comment),
        ..Item::default()
    }
}

/// `open t use {x, y as z, f.{a, b}}`.
pub fn opened(entry: &Entry, tokens: &[Token], around: &[usize]) -> Item {
    let uses = tokens.iter().position(|token| token.text == "use");
    let uses = uses.unwrap_or(tokens.len());
    let words = tokens[uses..].iter().map(|token| token.text.as_str());
    let words: Vec<&str> = words.filter(|&word| word != "use").collect();
    // Fields of a field stand in braces of their own; the field before them brings nothing.
    let parts = words.split(|word| matches!(*word, "{" | "}" | ","));
    let names = parts.filter_map(|part| part.last().filter(|word| **word != "."));
    Item {
        others: names.map(|name| name.to_string()).collect(),
        kind: Kind::Open,
        head: tokens[1..uses].to_vec(),
        ..item(entry, around)
    }
}

/// A record or a data type.
pub fn declared(entry: &Entry, tokens: &[Token], marks: usize, around: &[usize]) -> Item {
    let record = tokens[marks].text == "record";
    let (fields, others) = if record {
        (members(entry), Vec::new())
    } else {
        (Vec::new(), members(entry))
    };
    Item {
        name: tokens[marks + 1].text.clone(),
        others,
        fields,
        kind: Kind::Type,
        public: marks > 0,
        head: tokens[marks + 2..].to_vec(),
        ..item(entry, around)
    }
}

/// The names before the colons of its inner lines.
fn members(entry: &Entry) -> Vec<String> {
    let inner = entry.lines[1..]
        .iter()
        .filter(|line| line.look == Look::Text);
    let column = inner.clone().map(|line| line.indent).min().unwrap_or(0);
    let mut found = Vec::new();
    for line in inner.filter(|line| line.indent == column) {
        let tokens = line_tokens(line.text, line.number);
        let before = tokens
            .iter()
            .map(|token| &token.text)
            .take_while(|text| *text != ":");
        let names: Vec<String> = before.filter(|text| *text != "pub").cloned().collect();
        if tokens.iter().any(|token| token.text == ":") {
            found.extend(names);
        }
    }
    found
}

/// A name with its type.
pub fn signed(entry: &Entry, tokens: &[Token], marks: usize, around: &[usize]) -> Item {
    Item {
        name: tokens[marks].text.clone(),
        public: tokens[..marks].iter().any(|token| token.text == "pub"),
        head: tokens[marks + 1..].to_vec(),
        ..item(entry, around)
    }
}
