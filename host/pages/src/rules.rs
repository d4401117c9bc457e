//! docs/RULES.md: which rules there are.

use std::collections::BTreeSet;

/// Where each rule is said: its number and its line, in order.
pub fn rules(text: &str) -> Vec<(usize, usize)> {
    let lines = text.lines().enumerate();
    lines
        .filter_map(|(at, line)| Some((said(line)?, at + 1)))
        .collect()
}

/// The rule that a line says: `- **R12.** ..` or `| R12 | ..`.
fn said(line: &str) -> Option<usize> {
    let line = line.trim_start();
    let (number, _) = if let Some(rest) = line.strip_prefix("- **R") {
        rest.split_once(".**")?
    } else {
        line.strip_prefix("| R")?.split_once(" |")?
    };
    number.parse().ok()
}

/// The rules that a text names: `R12 to R19, R21`.
pub fn named(text: &str) -> BTreeSet<usize> {
    let mut found = BTreeSet::new();
    let mut last = None;
    let mut range = false;
    for word in text.split(|c: char| !c.is_alphanumeric()) {
        let number = word
            .strip_prefix('R')
            .and_then(|digits| digits.parse().ok());
        match (number, last, range) {
            (Some(end), Some(begin), true) => found.extend(begin..=end),
            (Some(one), _, _) => {
                found.insert(one);
            }
            (None, _, _) => {}
        }
        range = word == "to" && last.is_some();
        last = number.or(last.filter(|_| range));
    }
    found
}

#[cfg(test)]
mod tests {
    use super::*;

    #[test]
    fn rules_are_items_and_rows() {
        let text = "# Rules\n\n- **R1.** One.\nSee R1 and **R7.**\n\n| Rule | N |\n|---|---|\n| R2 | 32 |\n  - **R30.** Deeper.\n";
        assert_eq!(rules(text), [(1, 3), (2, 8), (30, 9)]);
    }

    #[test]
    fn ranges_and_lists() {
        let all = |text| named(text).into_iter().collect::<Vec<_>>();
        assert_eq!(all("R12 to R15, R21"), [12, 13, 14, 15, 21]);
        assert_eq!(all("R5"), [5]);
        assert_eq!(all("R1, R3 to R4 and R9"), [1, 3, 4, 9]);
        assert_eq!(all("to the head, RULES, none"), [0; 0]);
    }
}
