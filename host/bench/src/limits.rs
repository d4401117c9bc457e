//! The limits that ratios are held to: they stand in `docs/PERFORMANCE.md`,
//! in the columns "Limit" of its tables.

const PAGE: &str = include_str!("../../../docs/PERFORMANCE.md");

/// A row of a table: its name and its limit.
pub type Limit = (&'static str, f64);

/// Every row that has a limit.
pub fn limits() -> Vec<Limit> {
    limits_in(PAGE)
}

fn limits_in(page: &'static str) -> Vec<Limit> {
    let (mut limits, mut column) = (Vec::new(), None);
    for cells in page.lines().map(cells) {
        let head = cells.iter().position(|cell| *cell == "Limit");
        // A table lasts as long as its lines; the one under its head has no
        // number.
        column = head.or(column).filter(|column| *column < cells.len());
        let limit = column.and_then(|column| cells[column].parse().ok());
        limits.extend(limit.map(|limit| (cells[0], limit)));
    }
    limits
}

/// The cells of a line of a table.
fn cells(line: &'static str) -> Vec<&'static str> {
    let line = line.trim();
    let inner = line
        .strip_prefix('|')
        .and_then(|line| line.strip_suffix('|'));
    inner.map_or_else(Vec::new, |line| line.split('|').map(str::trim).collect())
}

/// The limit of a row.
pub fn limit_of(limits: &[Limit], name: &str) -> Option<f64> {
    let (_, limit) = limits.iter().find(|(known, _)| *known == name)?;
    Some(*limit)
}

#[cfg(test)]
mod tests {
    use super::*;

    #[test]
    fn limits_are_read_from_their_columns() {
        let page = "a | b\n\n| | Plain | Ratio | Limit |\n|---|---|---|---|\n\
                    | read X | 7 ns | 1.19 | 1.2 |\n| tick | 9 ns | 0.9 | 1 |\n\n\
                    | other | 1 | 2 | 3 |\n\n\
                    | | Ratio | Limit |\n|---|---|---|\n| advance | - | 0.001 |\n";
        let limits = limits_in(page);
        let expected = [("read X", 1.2), ("tick", 1.0), ("advance", 0.001)];
        assert_eq!(limits, expected);
        assert_eq!(limit_of(&limits, "tick"), Some(1.0));
        assert_eq!(limit_of(&limits, "other"), None);
    }
}
