//! The list held against a small tree, true and with each fault.

use pages::check::check;
use pages::graph::Graph;
use pages::reach::Reach;
use pages::reading::Reading;
use pages::tree::Tree;

const LIST: &str = include_str!("tree/READING.md");

const FILES: [(&str, &str); 6] = [
    (
        "clock/specs/Counts.antt",
        include_str!("tree/Counts.antt.txt"),
    ),
    ("clock/specs/Laws.antt", include_str!("tree/Laws.antt.txt")),
    (
        "clock/specs/Stated.antt",
        include_str!("tree/Stated.antt.txt"),
    ),
    ("clock/proofs/Tied.antt", include_str!("tree/Tied.antt.txt")),
    ("clock/src/lib.rt", include_str!("tree/clock.rt.txt")),
    (
        "crustnewt/src/lib.rt",
        include_str!("tree/crustnewt.rt.txt"),
    ),
];

/// A clock, and an archive over it.
fn tree() -> Tree {
    tree_with("", "")
}

/// The same with a change of the text.
fn tree_with(from: &str, to: &str) -> Tree {
    let mut tree = Tree::new("clock:\ncrustnewt staticlib: clock\n");
    for (path, text) in FILES {
        let text = if from.is_empty() {
            text.into()
        } else {
            text.replace(from, to)
        };
        tree.add(&format!("crates/{path}"), &text);
    }
    tree
}

fn errors_in(tree: &Tree, list: &str) -> Vec<String> {
    let graph = Graph::of(tree);
    let reading = Reading::parse(list);
    let reach = Reach::of(tree, &graph, &reading);
    check(tree, &graph, &reading, &reach, &[(1, 3), (2, 4)])
}

/// The faults of the list with a change, those that it begins with left out.
fn errors(from: &str, to: &str) -> Vec<String> {
    assert!(LIST.contains(from), "{from}");
    errors_in(&tree(), &LIST.replacen(from, to, 1))
}

#[test]
fn a_true_list_is_silent() {
    assert_eq!(errors_in(&tree(), LIST), [""; 0]);
}

#[test]
fn the_first_statement_is_counted_alone() {
    let errors = errors("alone: 10 lines", "alone: 12 lines");
    assert_eq!(errors.len(), 1);
    assert!(errors[0].contains("should be: The promises and the first statement alone: 10 lines"));
}

#[test]
fn numbers_are_held() {
    assert_eq!(
        errors("| 6 |", "| 7 |"),
        ["docs/READING.md:20: crates/clock/specs/Counts.antt has 6 lines"]
    );
    assert_eq!(
        errors("| 5 |", "| 6 |"),
        ["docs/READING.md:27: these types of crates/clock/src/lib.rt have 5 lines",]
    );
}

#[test]
fn a_page_that_is_not_listed() {
    let found = errors(
        "## Types",
        "| [None.antt](../crates/clock/specs/None.antt) | 1 | | |\n\n## Types",
    );
    assert_eq!(
        found[0],
        "docs/READING.md:23: there is no page crates/clock/specs/None.antt"
    );
    let row = "| [Stated.antt](../crates/clock/specs/Stated.antt) | 4 | | a statement |\n";
    let found = errors(row, "");
    assert_eq!(
        found[..2],
        [
            "crates/clock/specs/Stated.antt:1: isn't in docs/READING.md, and is reached: `Later` (by clock::AllLater), `AllLater` (by the list)",
            "crates/clock/specs/Stated.antt:1: begins as a page to believe, and isn't in docs/READING.md",
        ]
    );
}

#[test]
fn a_page_that_nothing_reaches() {
    let statement = "`AllLater`";
    let found = errors(statement, "");
    assert!(found
        .contains(&"docs/READING.md:21: nothing reaches crates/clock/specs/Stated.antt".into()));
    assert!(found.contains(
        &"crates/clock/specs/Counts.antt:15: `is_past` is not reached, and its page is listed"
            .into()
    ));
    let found = errors(statement, "`Nobody`");
    assert_eq!(
        found[0],
        "docs/READING.md:7: crates/clock/specs/Stated.antt has no `Nobody`"
    );
}

#[test]
fn what_stands_beside() {
    let list = LIST
        .replace("`AllLater`", "")
        .replace("| counts |", "| counts. Beside: `is_past` |");
    let found = errors_in(&tree(), &list);
    assert!(!found.iter().any(|error| error.contains("is_past")));
    let found = errors("| counts |", "| counts. Beside: `is_past` |");
    let gone =
        "docs/READING.md:20: crates/clock/specs/Counts.antt has no `is_past` that nothing reaches";
    assert_eq!(found, [gone]);
}

#[test]
fn rules_and_headings() {
    assert_eq!(
        errors("R1 to R2", "R1, R3"),
        [
            "docs/READING.md:20: there is no rule R3",
            "docs/READING.md:20: the heading of crates/clock/specs/Counts.antt has other rules: Rules R1 to R2",
        ]
    );
    let mut changed = tree();
    changed.add("crates/clock/specs/More.antt", "-- Document 01.\n");
    changed.add("crates/clock/specs/Rule.antt", "-- Rule R1: more.\n");
    changed.add(
        "crates/clock/specs/Aside.antt",
        "-- Code: as the loop does.\n",
    );
    assert_eq!(
        errors_in(&changed, LIST),
        [
            "crates/clock/specs/More.antt:1: begins with none of: Rule, Rules, Statement, Face, Lemmas, Code",
            "crates/clock/specs/Rule.antt:1: begins as a page to believe, and isn't in docs/READING.md",
        ]
    );
}

#[test]
fn rules_are_named() {
    let changed = tree_with("-- Rules R1 to R2: counts.", "-- Rules: counts.");
    assert_eq!(
        errors_in(&changed, LIST),
        [
            "docs/READING.md:20: the heading of crates/clock/specs/Counts.antt has other rules: Rules",
            "crates/clock/specs/Counts.antt:1: begins with rules, and names none",
        ]
    );
    let changed = tree_with("-- Statement: a count", "-- Lemmas: a count");
    let aside = "crates/clock/specs/Stated.antt:1: is in docs/READING.md, and begins as Lemmas";
    assert_eq!(errors_in(&changed, LIST), [aside]);
}

#[test]
fn ties_are_held() {
    let found = errors("`counts`", "`all-later`");
    assert_eq!(
        found[..2],
        [
            "docs/READING.md:14: clock::all-later doesn't say clock::counted",
            "docs/READING.md:14: clock::all-later doesn't say clock::next_of",
        ]
    );
    let found = errors("`counts`", "`nothing`");
    assert_eq!(
        found[0],
        "docs/READING.md:14: crates/clock/proofs/Tied.antt has no `nothing`"
    );
}

#[test]
fn statements_are_proved() {
    let changed = tree_with("all-later : AllLater", "all-later : AllLater → Count");
    let unproved =
        "crates/clock/specs/Stated.antt:12: `AllLater` is a statement that no theorem proves";
    assert_eq!(errors_in(&changed, LIST), [unproved]);
}

#[test]
fn types_are_held() {
    assert_eq!(
        errors("`Quanta`, `Count`", "`Count`, `Timer`"),
        [
            "docs/READING.md:27: nothing reaches a type `Timer` of crates/clock/src/lib.rt",
            "docs/READING.md:27: these types of crates/clock/src/lib.rt have 4 lines",
            "crates/clock/src: the type `Quanta` is reached, and isn't in docs/READING.md",
        ]
    );
}

#[test]
fn what_is_not_sure_is_told() {
    let at = "crates/clock/specs/Counts.antt:15: `is_past`";
    let hidden = tree_with(
        "is_past now c = ltb c.0 now",
        "is_past plus c = ltb c.0 plus",
    );
    assert_eq!(
        errors_in(&hidden, LIST),
        [format!("{at} binds `plus`, the name of a declaration")]
    );
    let unknown = tree_with("ltb c.0 now", "ltx c.0 now");
    assert_eq!(
        errors_in(&unknown, LIST),
        [format!("{at} mentions `ltx`, which nothing brings in")]
    );
    let missing = tree_with("Counts.{is_past}", "Counts.{is_past, is_future}");
    let at = "crates/clock/specs/Stated.antt:5";
    assert_eq!(
        errors_in(&missing, LIST),
        [format!(
            "{at}: there is no Rattle.clock.specs.Counts.is_future"
        )]
    );
}
