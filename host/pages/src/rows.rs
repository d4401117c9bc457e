//! `pages rows`: the tables of the list, as the crates are now.

use crate::reach::Reach;
use crate::rules;
use crate::scope::Thing;
use crate::sum::{believed, Sum};
use crate::tree::{Code, File, Tree};
use std::collections::BTreeSet;

/// A table for each family of crates, one of the types, and the line with their sums.
pub fn rows(tree: &Tree, reach: &Reach) -> String {
    let mut lines = vec![format!("In all: {}", Sum::of(tree, reach))];
    let believed = believed(reach);
    for (title, members) in &tree.families {
        let pages: Vec<String> = members
            .iter()
            .flat_map(|owner| ordered(tree, owner, &believed))
            .map(|place| page_row(&tree.files[place]))
            .collect();
        if !pages.is_empty() {
            let head = ["| Page | Lines | Rules | Says |", "|---|--:|---|---|"];
            lines.extend(["", &format!("## {title}"), ""].map(str::to_string));
            lines.extend(head.map(str::to_string));
            lines.extend(pages);
        }
    }
    let head = [
        "",
        "## Types",
        "",
        "| File | Lines | Types |",
        "|---|--:|---|",
    ];
    lines.extend(head.map(str::to_string));
    lines.extend(tree.code.iter().filter_map(|code| type_row(reach, code)));
    lines.join("\n")
}

/// The pages of a crate among these, each behind those that it brings in.
fn ordered(tree: &Tree, owner: &str, places: &BTreeSet<usize>) -> Vec<usize> {
    let own = places
        .iter()
        .filter(|&&place| tree.files[place].owner == owner);
    let mut left: Vec<usize> = own.copied().collect();
    let mut found = Vec::new();
    while !left.is_empty() {
        let brings = |place: usize, other: &usize| {
            let module = &tree.files[*other].module;
            let imports = &tree.files[place].page.imports;
            imports
                .iter()
                .any(|import| import.path[1..].join(".") == *module)
        };
        let free = |at: &usize| !left.iter().any(|other| brings(left[*at], other));
        let next = (0..left.len()).find(free).unwrap_or(0);
        found.push(left.remove(next));
    }
    found
}

fn page_row(file: &File) -> String {
    let (kind, words) = file.page.heading.split_once(':').unwrap_or_default();
    let kind = if rules::named(kind).is_empty() {
        ""
    } else {
        kind
    };
    let rules = kind
        .trim_start_matches("Rules ")
        .trim_start_matches("Rule ");
    let sentence = words
        .split(". ")
        .next()
        .unwrap_or("")
        .trim()
        .trim_end_matches('.');
    format!(
        "| {} | {} | {rules} | {sentence} |",
        link(&file.path),
        file.page.lines
    )
}

fn type_row(reach: &Reach, code: &Code) -> Option<String> {
    let thing = |name: &String| Thing::Type(code.owner.clone(), name.clone());
    let types = code.source.types.iter();
    let (lines, names): (Vec<usize>, Vec<String>) = types
        .filter(|of| reach.found.contains_key(&thing(&of.name)))
        .map(|of| (of.lines, format!("`{}`", of.name)))
        .unzip();
    let sum: usize = lines.iter().sum();
    let row = format!("| {} | {sum} | {} |", link(&code.path), names.join(", "));
    (!names.is_empty()).then_some(row)
}

/// `[crate/Page.antt](../crates/crate/specs/Page.antt)`
fn link(path: &str) -> String {
    let parts: Vec<&str> = path.split('/').collect();
    let (owner, name) = (parts[1], parts[parts.len() - 1]);
    format!("[{owner}/{name}](../{path})")
}

#[cfg(test)]
mod tests {
    use super::*;
    use crate::graph::Graph;
    use crate::reading::Reading;

    #[test]
    fn pages_stand_behind_what_they_bring_in() {
        let mut tree = Tree::new("# base: counts\nclock:\ncrustnewt: clock\n");
        let used = "-- Rule R2: later\n-- on. More.\n-- Assumes nothing.\nb : A\nb = x\n";
        tree.add("crates/clock/specs/Zero.antt", used);
        let uses = "-- Rules R3 to R4: all.\nuse Rattle.clock.specs.Zero.{b}\na : A\na = b\n";
        tree.add("crates/clock/specs/All.antt", uses);
        let code = "ghost use Rattle.clock.specs.All.{a};\npub fn f(c: Count) -> Count\n    ensures { a }\n{\n}\n";
        tree.add("crates/crustnewt/src/lib.rt", code);
        let reach = Reach::of(&tree, &Graph::of(&tree), &Reading::default());
        let text = rows(&tree, &reach);
        let found: Vec<&str> = text.lines().filter(|line| line.contains(".antt")).collect();
        assert_eq!(
            found,
            [
                "| [clock/Zero.antt](../crates/clock/specs/Zero.antt) | 2 | R2 | later on |",
                "| [clock/All.antt](../crates/clock/specs/All.antt) | 2 | R3 to R4 | all |",
            ]
        );
        assert!(
            text.starts_with("In all: 4 lines of definitions on 2 pages, and 0 lines of types.")
        );
        assert!(text.contains("## base: counts"));
    }
}
