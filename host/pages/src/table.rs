//! Tables of the documents.

/// A row of a table.
#[derive(Clone, Debug)]
pub struct Row {
    /// Its line, from 1.
    pub line: usize,
    /// The heading that it stands under.
    pub heading: String,
    /// What stands between its bars.
    pub cells: Vec<String>,
}

impl Row {
    /// A cell, empty where there is none.
    pub fn cell(&self, at: usize) -> &str {
        self.cells.get(at).map_or("", String::as_str)
    }
}

/// The rows of a text's tables, without the tables' heads.
pub fn rows(text: &str) -> Vec<Row> {
    let mut heading = String::new();
    let mut found: Vec<Row> = Vec::new();
    for (at, line) in text.lines().enumerate() {
        if let Some(title) = line.strip_prefix("## ") {
            heading = title.trim().to_string();
        } else if line.starts_with("|-") {
            found.pop();
        } else if let Some(inside) = line.strip_prefix('|') {
            let inside = inside.trim_end().trim_end_matches('|');
            found.push(Row {
                line: at + 1,
                heading: heading.clone(),
                cells: inside.split('|').map(|cell| cell.trim().into()).collect(),
            });
        }
    }
    found
}

/// Where the first link of a cell leads, from the repository's root.
pub fn link(cell: &str) -> Option<String> {
    let (_, rest) = cell.split_once("](")?;
    let (target, _) = rest.split_once(')')?;
    Some(target.trim_start_matches("../").to_string())
}

/// What stands between backticks.
pub fn quoted(cell: &str) -> Vec<String> {
    let parts = cell.split('`').skip(1).step_by(2);
    parts.map(str::to_string).collect()
}

/// The first number of a text, with or without commas between its digits.
pub fn number(text: &str) -> Option<usize> {
    let begins = text.find(|c: char| c.is_ascii_digit())?;
    let digits = text[begins..].chars();
    let digits = digits.take_while(|&c| c.is_ascii_digit() || c == ',');
    digits
        .filter(|&c| c != ',')
        .collect::<String>()
        .parse()
        .ok()
}

#[cfg(test)]
mod tests {
    use super::*;

    const TEXT: &str = "# Title\n\n## One\n\n| A | B |\n|---|---|\n| [x](../crates/x.antt) | `a`, `b` |\n\n## Two\n\n| C |\n|--:|\n| 1,204 |\n";

    #[test]
    fn heads_of_tables_are_no_rows() {
        let found = rows(TEXT);
        let lines: Vec<usize> = found.iter().map(|row| row.line).collect();
        assert_eq!(lines, [7, 13]);
        assert_eq!(found[0].heading, "One");
        assert_eq!(found[1].heading, "Two");
        assert_eq!(found[0].cells.len(), 2);
    }

    #[test]
    fn cells_are_read() {
        let found = rows(TEXT);
        assert_eq!(link(found[0].cell(0)).as_deref(), Some("crates/x.antt"));
        assert_eq!(quoted(found[0].cell(1)), ["a", "b"]);
        assert_eq!(number(found[1].cell(0)), Some(1204));
        assert_eq!(found[0].cell(7), "");
        assert_eq!(link("no link"), None);
    }
}
