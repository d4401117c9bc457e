//! `pages`: what must be believed, and whether the documents say so.

use pages::graph::Graph;
use pages::reach::Reach;
use pages::reading::{Reading, READING};
use pages::sum::Sum;
use pages::trace::{RULES, TRACE};
use pages::tree::Tree;
use pages::{check, edits, report, rows, rules, trace};
use std::io::Write;
use std::path::Path;
use std::process::ExitCode;
use std::{fs, io};

const HELP: &str = include_str!("../help.txt");

fn main() -> ExitCode {
    let words: Vec<String> = std::env::args().skip(1).collect();
    let words: Vec<&str> = words.iter().map(String::as_str).collect();
    let done = match words[..] {
        ["--help" | "-h"] => {
            print!("{HELP}");
            return ExitCode::SUCCESS;
        }
        [] => run("check", Path::new(".")),
        [command @ ("check" | "reach" | "rows")] => run(command, Path::new(".")),
        ["check" | "reach" | "rows", word, ..] | [word, ..] => Err(io::Error::other(format!(
            "can't follow '{word}'; see `pages --help`"
        ))),
    };
    done.unwrap_or_else(|error| {
        eprintln!("pages: {error}");
        ExitCode::from(2)
    })
}

fn read(root: &Path, path: &str) -> io::Result<String> {
    let text = fs::read_to_string(root.join(path));
    text.map_err(|error| io::Error::other(format!("{path}: {error}")))
}

fn run(command: &str, root: &Path) -> io::Result<ExitCode> {
    let tree = Tree::read(root).map_err(|error| io::Error::other(format!("crates: {error}")))?;
    let graph = Graph::of(&tree);
    let reading = Reading::parse(&read(root, READING)?);
    let reach = Reach::of(&tree, &graph, &reading);
    match command {
        "reach" => writeln!(io::stdout(), "{}", report::reach(&tree, &reach))?,
        "rows" => writeln!(io::stdout(), "{}", rows::rows(&tree, &reach))?,
        _ => return checked(root, &tree, &graph, &reading, &reach),
    }
    Ok(ExitCode::SUCCESS)
}

fn checked(
    root: &Path,
    tree: &Tree,
    graph: &Graph,
    reading: &Reading,
    reach: &Reach,
) -> io::Result<ExitCode> {
    let rules = rules::rules(&read(root, RULES)?);
    let mut errors = check::check(tree, graph, reading, reach, &rules);
    let wrong = edits::wrong_answers(root)?;
    errors.extend(trace::check(tree, &read(root, TRACE)?, &rules, &wrong));
    for error in &errors {
        eprintln!("{error}");
    }
    if errors.is_empty() {
        println!("pages: {} rules. {}", rules.len(), Sum::of(tree, reach));
        return Ok(ExitCode::SUCCESS);
    }
    eprintln!("pages: {} faults", errors.len());
    Ok(ExitCode::FAILURE)
}
