//! Lines of a page, and how indentation groups them.

use crate::token::{line_tokens, Token};

/// What stands on a line.
#[derive(Clone, Copy, Debug, PartialEq, Eq)]
pub enum Look {
    /// Nothing.
    Blank,
    /// A comment alone.
    Comment,
    /// Something else.
    Text,
}

/// A line.
#[derive(Clone, Debug)]
pub struct Line<'a> {
    /// From 1.
    pub number: usize,
    /// The spaces before it.
    pub indent: usize,
    /// What stands on it.
    pub look: Look,
    /// All of it.
    pub text: &'a str,
}

/// The lines of a text.
pub fn lines(text: &str) -> Vec<Line<'_>> {
    let numbered = text.lines().enumerate();
    numbered.map(|(at, text)| line(at + 1, text)).collect()
}

fn line(number: usize, text: &str) -> Line<'_> {
    let bare = text.trim_start();
    let look = match bare {
        "" => Look::Blank,
        "--" => Look::Comment,
        _ if bare.starts_with("-- ") => Look::Comment,
        _ => Look::Text,
    };
    Line {
        number,
        indent: text.len() - bare.len(),
        look,
        text,
    }
}

/// A line at a block's own column, with the comments right above it and the deeper lines below it.
pub struct Entry<'a> {
    /// The comments above.
    pub comments: &'a [Line<'a>],
    /// The line and what is deeper.
    pub lines: &'a [Line<'a>],
}

impl Entry<'_> {
    /// Its words.
    pub fn tokens(&self) -> Vec<Token> {
        let text = self.lines.iter().filter(|line| line.look == Look::Text);
        text.flat_map(|line| line_tokens(line.text, line.number))
            .collect()
    }

    /// How many of its lines look so.
    pub fn count(&self, look: Look) -> usize {
        let all = self.comments.iter().chain(self.lines);
        all.filter(|line| line.look == look).count()
    }

    /// The number of its first line, comments left out.
    pub fn number(&self) -> usize {
        self.lines[0].number
    }
}

/// The entries of a block whose column this is.
pub fn entries<'a>(lines: &'a [Line<'a>], indent: usize) -> Vec<Entry<'a>> {
    let begins = |line: &Line| line.look == Look::Text && line.indent <= indent;
    let starts: Vec<usize> = (0..lines.len()).filter(|&at| begins(&lines[at])).collect();
    let mut found = Vec::new();
    let mut free = 0;
    for (k, &start) in starts.iter().enumerate() {
        let limit = starts.get(k + 1).copied().unwrap_or(lines.len());
        let last = (start..limit)
            .rev()
            .find(|&at| lines[at].look == Look::Text);
        let end = last.unwrap_or(start) + 1;
        let above = lines[free..start].iter().rev();
        let comments = above.take_while(|line| line.look == Look::Comment).count();
        found.push(Entry {
            comments: &lines[start - comments..start],
            lines: &lines[start..end],
        });
        free = end;
    }
    found
}
