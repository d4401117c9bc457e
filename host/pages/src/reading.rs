//! docs/READING.md: the pages that must be believed, and from which statements.

use crate::rules;
use crate::table::{link, number, quoted, rows, Row};
use std::collections::BTreeSet;

/// The document.
pub const READING: &str = "docs/READING.md";

/// Names on a page.
#[derive(Clone, Debug, Default, PartialEq, Eq)]
pub struct Named {
    /// The page, from the repository's root.
    pub path: String,
    /// The names.
    pub names: Vec<String>,
}

/// A page, or a file of code with types, that must be read.
#[derive(Clone, Debug, PartialEq, Eq)]
pub struct Listed {
    /// Where the list says so.
    pub line: usize,
    /// The file; of a page the names are those that stand on it though nothing reaches them, of code the types.
    pub file: Named,
    /// How many lines it is said to have.
    pub lines: Option<usize>,
    /// The rules that it is said to say.
    pub rules: BTreeSet<usize>,
}

/// A definition that is shaped like the code, and what is believed in its place.
#[derive(Clone, Debug, PartialEq, Eq)]
pub struct Tie {
    /// Where the list says so.
    pub line: usize,
    /// The definition.
    pub shaped: Named,
    /// The page.
    pub page: Named,
    /// The theorem between them.
    pub theorem: Named,
}

/// The list.
#[derive(Clone, Debug, Default)]
pub struct Reading {
    /// The statements, each with its line.
    pub statements: Vec<(usize, Named)>,
    /// The ties.
    pub ties: Vec<Tie>,
    /// The pages.
    pub pages: Vec<Listed>,
    /// The types.
    pub types: Vec<Listed>,
    /// The numbers of the line `In all: ..`, and where it stands.
    pub sum: Option<(usize, Vec<usize>)>,
    /// Those of what the promises and the first statement reach by themselves.
    pub first: Option<(usize, Vec<usize>)>,
}

/// How the line of the first statement begins.
pub const FIRST: &str = "The promises and the first statement alone: ";

impl Reading {
    /// Reads the document.
    pub fn parse(text: &str) -> Reading {
        let mut reading = Reading::default();
        for row in rows(text) {
            reading.add(&row);
        }
        reading.sum = numbers_behind(text, "In all: ");
        reading.first = numbers_behind(text, FIRST);
        reading
    }

    /// The list with its first statement alone.
    pub fn with_first(&self) -> Reading {
        let mut reading = self.clone();
        reading.statements.truncate(1);
        reading
    }

    fn add(&mut self, row: &Row) {
        let Some(path) = link(row.cell(0)) else {
            return;
        };
        let named = |cell: usize| Named {
            path: link(row.cell(cell)).unwrap_or_else(|| path.clone()),
            names: quoted(row.cell(cell)),
        };
        match row.heading.as_str() {
            "Statements" => self.statements.push((row.line, named(1))),
            "Tied" => self.ties.push(Tie {
                line: row.line,
                shaped: named(1),
                page: named(2),
                theorem: named(3),
            }),
            "Types" => self.types.push(listed(row, named(2))),
            _ if path.ends_with(".antt") => self.pages.push(listed(row, beside(path.clone(), row))),
            _ => {}
        }
    }
}

fn listed(row: &Row, file: Named) -> Listed {
    Listed {
        line: row.line,
        file,
        lines: number(row.cell(1)),
        rules: rules::named(row.cell(2)),
    }
}

/// What stands behind `Beside:` in the last cell of a page's row.
fn beside(path: String, row: &Row) -> Named {
    let last = row.cell(3).split_once("Beside:");
    Named {
        path,
        names: last.map(|(_, names)| quoted(names)).unwrap_or_default(),
    }
}

/// The numbers of the line that begins so, and where it stands.
fn numbers_behind(text: &str, begin: &str) -> Option<(usize, Vec<usize>)> {
    let mut lines = text.lines().enumerate();
    let (at, rest) = lines.find_map(|(at, line)| Some((at, line.strip_prefix(begin)?)))?;
    Some((at + 1, rest.split(' ').filter_map(number).collect()))
}

#[cfg(test)]
mod tests {
    use super::*;

    const TEXT: &str = "\
In all: 1,204 lines of definitions on 75 pages, and 90 lines of types.

## Statements

| Page | Statements |
|---|---|
| [Demand.antt](../crates/a/specs/Demand.antt) | `One`, `Two` |

## Tied

| Shaped like the code | Definition | Page | Theorem |
|---|---|---|---|
| [Decode.antt](../crates/a/specs/Decode.antt) | `readOf` | [Reading.antt](../crates/b/specs/Reading.antt) `Reads` | [Table.antt](../crates/a/proofs/Table.antt) `reads` |

## Frames

| Page | Lines | Rules | Says |
|---|--:|---|---|
| [Card.antt](../crates/b/specs/Card.antt) | 24 | R2 to R4, R9 | the numbers. Beside: `x` |

## Types

| File | Lines | Types |
|---|--:|---|
| [lib.rt](../crates/b/src/lib.rt) | 7 | `Count`, `Quanta` |
";

    fn on(path: &str, names: &[&str]) -> Named {
        Named {
            path: path.into(),
            names: names.iter().map(|name| name.to_string()).collect(),
        }
    }

    #[test]
    fn statements_ties_and_sum() {
        let reading = Reading::parse(TEXT);
        assert_eq!(
            reading.statements,
            [(7, on("crates/a/specs/Demand.antt", &["One", "Two"]))]
        );
        assert_eq!(
            reading.ties[0].shaped,
            on("crates/a/specs/Decode.antt", &["readOf"])
        );
        assert_eq!(
            reading.ties[0].page,
            on("crates/b/specs/Reading.antt", &["Reads"])
        );
        assert_eq!(
            reading.ties[0].theorem,
            on("crates/a/proofs/Table.antt", &["reads"])
        );
        assert_eq!(reading.sum, Some((1, vec![1204, 75, 90])));
    }

    #[test]
    fn pages_and_types() {
        let reading = Reading::parse(TEXT);
        assert_eq!(reading.pages.len(), 1);
        assert_eq!(
            reading.pages[0].file,
            on("crates/b/specs/Card.antt", &["x"])
        );
        assert_eq!(reading.pages[0].lines, Some(24));
        assert_eq!(reading.pages[0].rules, BTreeSet::from([2, 3, 4, 9]));
        assert_eq!(
            reading.types[0].file,
            on("crates/b/src/lib.rt", &["Count", "Quanta"])
        );
        assert_eq!(reading.types[0].lines, Some(7));
    }
}
