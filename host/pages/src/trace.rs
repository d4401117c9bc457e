//! docs/TRACE.md: a row for each rule.

use crate::item::Kind;
use crate::table::{quoted, rows, Row};
use crate::tree::Tree;
use std::collections::{BTreeMap, BTreeSet};

/// The document.
pub const TRACE: &str = "docs/TRACE.md";
/// The rules that it follows.
pub const RULES: &str = "docs/RULES.md";

/// Holds the trace against the rules, the crates and the wrong answers.
pub fn check(
    tree: &Tree,
    text: &str,
    rules: &[(usize, usize)],
    wrong: &BTreeSet<String>,
) -> Vec<String> {
    let mut errors = Vec::new();
    let mut known: BTreeMap<usize, usize> = BTreeMap::new();
    for &(rule, line) in rules {
        if let Some(first) = known.insert(rule, line) {
            errors.push(format!(
                "{RULES}:{line}: R{rule} is said already, line {first}"
            ));
        }
    }
    let mut seen: BTreeMap<usize, usize> = BTreeMap::new();
    for row in rows(text) {
        let Some(rule) = number(&row) else { continue };
        if !known.contains_key(&rule) {
            errors.push(format!("{TRACE}:{}: there is no rule R{rule}", row.line));
        }
        if let Some(first) = seen.insert(rule, row.line) {
            errors.push(format!(
                "{TRACE}:{}: R{rule} has a row already, line {first}",
                row.line
            ));
        }
        check_row(tree, &row, rule, wrong, &mut errors);
    }
    for (rule, line) in rules.iter().filter(|(rule, _)| !seen.contains_key(rule)) {
        errors.push(format!("{RULES}:{line}: R{rule} has no row in {TRACE}"));
    }
    errors
}

fn number(row: &Row) -> Option<usize> {
    row.cell(0).strip_prefix('R')?.parse().ok()
}

fn check_row(
    tree: &Tree,
    row: &Row,
    rule: usize,
    wrong: &BTreeSet<String>,
    errors: &mut Vec<String>,
) {
    let at = format!("{TRACE}:{}: R{rule}", row.line);
    if row.cells.len() != 4 {
        errors.push(format!(
            "{at} has {} cells: rule, place, definition, wrong answer",
            row.cells.len()
        ));
        return;
    }
    if row.cell(1).is_empty() {
        errors.push(format!("{at} has no place"));
    }
    let known = |name: &String| exists(tree, name);
    check_cell(&at, row.cell(2), "definition", &known, errors);
    let refused = |name: &String| wrong.contains(name);
    check_cell(&at, row.cell(3), "wrong answer", &refused, errors);
}

/// Names that are there, or `none: why`.
fn check_cell(
    at: &str,
    cell: &str,
    what: &str,
    is_there: &dyn Fn(&String) -> bool,
    errors: &mut Vec<String>,
) {
    if cell.starts_with("none: ") {
        return;
    }
    let names = quoted(cell);
    if names.is_empty() {
        errors.push(format!(
            "{at} names no {what}: `crate::name`, or none: and why"
        ));
    }
    for name in names.iter().filter(|name| !is_there(name)) {
        errors.push(format!("{at}: there is no {what} `{name}`"));
    }
}

/// Whether a crate has it: a declaration of its pages, or a type, constant or function of its code.
fn exists(tree: &Tree, name: &str) -> bool {
    let Some((owner, name)) = name.split_once("::") else {
        return false;
    };
    let pages = tree.files.iter().filter(|file| file.owner == owner);
    let mut items = pages.flat_map(|file| &file.page.items);
    let declared = items.any(|item| item.kind != Kind::Open && item.declares(name));
    let code = tree.code.iter().filter(|code| code.owner == owner);
    declared || code.into_iter().any(|code| code.source.names(name))
}

#[cfg(test)]
mod tests {
    use super::*;

    fn tree() -> Tree {
        let mut tree = Tree::new("clock:\n");
        tree.add(
            "crates/clock/specs/Counts.antt",
            "pub is_past : A\nis_past = x\n",
        );
        let code = "pub struct Count(pub u32);\nimpl Count {\n    pub fn next() {\n    }\n}\n";
        tree.add("crates/clock/src/lib.rt", code);
        tree
    }

    fn errors(text: &str) -> Vec<String> {
        let wrong = BTreeSet::from(["clock::now_is_past".to_string()]);
        let text =
            format!("| Rule | Place | Definition | Wrong answer |\n|---|---|---|---|\n{text}");
        check(&tree(), &text, &[(1, 4), (2, 9)], &wrong)
    }

    #[test]
    fn what_is_there_is_silent() {
        let text = "| R1 | here | `clock::is_past`, `clock::Count` | `clock::now_is_past` |\n| R2 | there | none: a unit | none: no `code` |\n";
        assert_eq!(errors(text), [""; 0]);
        assert_eq!(
            errors(&text.replace("clock::is_past", "clock::Count::next")),
            [""; 0]
        );
    }

    #[test]
    fn a_rule_is_said_once() {
        let text = "| R1 | here | none: a unit | none: a unit |\n";
        let found = check(&tree(), text, &[(1, 4), (1, 9)], &BTreeSet::new());
        assert_eq!(found, ["docs/RULES.md:9: R1 is said already, line 4"]);
    }

    #[test]
    fn each_fault_has_its_line() {
        let text = "| R1 | | `clock::is_future` | `clock::nobody` |\n| R1 | here | | none |\n| R3 | x | none: y |\n";
        assert_eq!(
            errors(text),
            [
                "docs/TRACE.md:3: R1 has no place",
                "docs/TRACE.md:3: R1: there is no definition `clock::is_future`",
                "docs/TRACE.md:3: R1: there is no wrong answer `clock::nobody`",
                "docs/TRACE.md:4: R1 has a row already, line 3",
                "docs/TRACE.md:4: R1 names no definition: `crate::name`, or none: and why",
                "docs/TRACE.md:4: R1 names no wrong answer: `crate::name`, or none: and why",
                "docs/TRACE.md:5: there is no rule R3",
                "docs/TRACE.md:5: R3 has 3 cells: rule, place, definition, wrong answer",
                "docs/RULES.md:9: R2 has no row in docs/TRACE.md",
            ]
        );
    }
}
