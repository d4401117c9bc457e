//! A page of antt: what it brings in, and what it declares.

use crate::import::Import;
use crate::item::{declared, opened, signed, Item, Kind};
use crate::layout::{entries, lines, Entry, Line, Look};
use crate::token::{depths, Token};

/// A page.
#[derive(Clone, Debug, Default)]
pub struct Page {
    /// The comment at its beginning, in one line, without what it says of assumptions.
    pub heading: String,
    /// How many lines are neither blank nor comments nor `use` lines.
    pub lines: usize,
    /// What it brings in.
    pub imports: Vec<Import>,
    /// What it declares, in order.
    pub items: Vec<Item>,
    /// The words of the parameters of its `module _ (..) where` blocks.
    pub sections: Vec<Vec<Token>>,
    /// What was not understood, with its line.
    pub unread: Vec<(usize, &'static str)>,
}

impl Page {
    /// Reads a page.
    pub fn parse(text: &str) -> Page {
        let lines = lines(text);
        let comments = lines
            .iter()
            .take_while(|line| line.look == Look::Comment)
            .count();
        let mut page = Page {
            heading: heading(&lines[..comments]),
            lines: lines.iter().filter(|line| line.look == Look::Text).count(),
            ..Page::default()
        };
        page.block(&lines[comments..], 0, &[]);
        page
    }

    fn block(&mut self, lines: &[Line], indent: usize, around: &[usize]) {
        let mut fixities = 0;
        for entry in entries(lines, indent) {
            let tokens = entry.tokens();
            let marks = tokens
                .iter()
                .take_while(|token| is_mark(&token.text))
                .count();
            let before = self.items.len();
            match tokens.get(marks).map_or("", |token| token.text.as_str()) {
                "use" | "mod" => self.header(&tokens),
                "module" => self.section(&entry, &tokens, around),
                "infix" | "infixl" | "infixr" => fixities += 1,
                "open" => self.items.push(opened(&entry, &tokens, around)),
                "record" | "data" => self.items.push(declared(&entry, &tokens, marks, around)),
                _ if is_signature(&tokens[marks..]) => {
                    self.items.push(signed(&entry, &tokens, marks, around))
                }
                _ => self.clause(&entry, &tokens),
            }
            if let Some(item) = self.items.get_mut(before) {
                item.lines += std::mem::take(&mut fixities);
            }
        }
    }

    fn header(&mut self, tokens: &[Token]) {
        self.lines -= 1;
        self.imports.extend(Import::parse(tokens));
    }

    fn section(&mut self, entry: &Entry, tokens: &[Token], around: &[usize]) {
        let depths = depths(tokens);
        let ends = (0..tokens.len()).find(|&at| tokens[at].text == "where" && depths[at] == 0);
        let Some(ends) = ends else {
            self.unread
                .push((entry.number(), "a block without `where`"));
            return;
        };
        let last = tokens[ends].line;
        let inner = entry.lines.iter().position(|line| line.number > last);
        let inner = &entry.lines[inner.unwrap_or(entry.lines.len())..];
        let around = [around, &[self.sections.len()]].concat();
        self.sections.push(tokens[1..ends].to_vec());
        let first = inner.iter().find(|line| line.look == Look::Text);
        self.block(inner, first.map_or(0, |line| line.indent), &around);
    }

    /// A clause, or a line that says what is unfolded, goes with the declaration before it.
    fn clause(&mut self, entry: &Entry, tokens: &[Token]) {
        let before = self
            .items
            .last_mut()
            .filter(|item| item.kind == Kind::Definition);
        let Some(item) = before else {
            self.unread
                .push((entry.number(), "a clause of no declaration"));
            return;
        };
        item.lines += entry.count(Look::Text);
        item.comments += entry.count(Look::Comment);
        if tokens[0].text != "unfolding" {
            item.clauses.push(tokens.to_vec());
        }
    }
}

fn heading(comments: &[Line]) -> String {
    let words = comments.iter().map(|line| line.text[2..].trim());
    let said = words.take_while(|words| !words.starts_with("Assumes "));
    said.collect::<Vec<_>>().join(" ")
}

fn is_mark(word: &str) -> bool {
    matches!(word, "pub" | "unfoldable" | "abbrev")
}

/// `name : type` or `name {ℓ} : type`.
fn is_signature(tokens: &[Token]) -> bool {
    let word = |at: usize| tokens.get(at).map_or("", |token| token.text.as_str());
    if word(1) != "{" {
        return word(1) == ":";
    }
    let close = tokens.iter().position(|token| token.text == "}");
    close.is_some_and(|close| word(close + 1) == ":")
}

#[cfg(test)]
mod tests {
    use super::*;

    const TEXT: &str = "\
-- Rules R1 to R3: a page
-- of some lines.
-- Assumes nothing.
use a.B.{c}
pub use a.B.{d}

-- how many
abbrev pub size : C → ℕ
-- none
size None = 0
size (Some x) =
    -- one
    1

infix 70 ◌unless◌
pub data Test : Type 0 where
  ◌unless◌ : Reply → Bool → Test
  passed failed : Test

module _ (A : Type 0)
    (f : A → A) where
  pub record Both : Type 0 where
    pub one : A
    -- the other
    pub other : A → A

  open (f x) use {one, other as two, more.{a, b as c}}

  module _ {n : ℕ} where
    twice : A → A
    unfolding f
    twice x = go x
      where
        go : A → A
        go y = f (f y)
";

    fn shown(item: &Item) -> (&str, usize, usize, &[usize]) {
        (&item.name, item.lines, item.comments, &item.sections)
    }

    #[test]
    fn declarations_have_their_lines_comments_and_blocks() {
        let page = Page::parse(TEXT);
        let found: Vec<_> = page.items.iter().map(shown).collect();
        assert_eq!(
            found,
            [
                ("size", 4, 3, &[] as &[usize]),
                ("Test", 4, 0, &[]),
                ("Both", 3, 1, &[0]),
                ("", 1, 0, &[0]),
                ("twice", 6, 0, &[0, 1]),
            ]
        );
        assert_eq!(page.unread, []);
        assert_eq!(page.heading, "Rules R1 to R3: a page of some lines.");
        assert_eq!(page.lines, 21);
    }

    #[test]
    fn declarations_bring_names() {
        let page = Page::parse(TEXT);
        assert_eq!(page.items[1].others, ["◌unless◌", "passed", "failed"]);
        assert_eq!(page.items[2].fields, ["one", "other"]);
        assert_eq!(page.items[3].others, ["one", "two", "a", "c"]);
        assert_eq!(page.items[4].clauses.len(), 1);
        assert!(page.items[0].public && !page.items[4].public);
        assert!(page.items[1].is_type() && !page.items[0].is_type());
        assert_eq!(page.imports.len(), 2);
    }

    #[test]
    fn types_say_what_is_behind_the_last_arrow() {
        let says = |text| Page::parse(text).items[0].says().to_string();
        assert_eq!(says("t : Demand\nt = x\n"), "Demand");
        assert_eq!(says("t : (A : B → C) → Runs A\nt = x\n"), "Runs");
        assert_eq!(says("t : (A → B)\nt = x\n"), "(");
    }

    #[test]
    fn what_is_not_understood_is_told() {
        let page = Page::parse("x = 1\n\nmodule _ (A : Type 0)\n  f : A\n");
        assert_eq!(
            page.unread,
            [
                (1, "a clause of no declaration"),
                (3, "a block without `where`")
            ]
        );
    }
}
