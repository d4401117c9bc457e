//! `bench`: how long calls take, of the proved library and of the independent
//! program, side by side.

mod boxes;
mod frames;
mod heads;
mod kept;
mod limits;
mod measure;
mod second;

use crustnewt_tool::options::{Options, Program};
use limits::{limit_of, Limit};
use measure::{Case, Times};
use std::process::ExitCode;

const PROGRAM: Program = Program {
    name: "bench",
    help: include_str!("../help.txt"),
    help_command: "`bench --help` or `./bench --help`",
};

/// Tries that a row gets before it is above its limit.
const TRIES: usize = 3;

#[derive(Default)]
struct Asked {
    check: bool,
    only: String,
}

fn main() -> ExitCode {
    PROGRAM.start(asked, run)
}

fn run(asked: Asked) -> ExitCode {
    let broken = measure_all(&asked);
    for line in &broken {
        eprintln!("bench: {line}");
    }
    match broken.is_empty() {
        true => ExitCode::SUCCESS,
        false => ExitCode::FAILURE,
    }
}

fn asked(mut options: Options<'_>) -> Result<Asked, String> {
    let mut asked = Asked::default();
    while let Some(name) = options.option()? {
        match name {
            "--check" => asked.check = true,
            "--only" => asked.only = options.value().ok_or("--only needs a text")?.to_owned(),
            _ => return Err(options.unknown()),
        }
    }
    Ok(asked)
}

/// Rows that measure the same two things.
struct Table {
    /// What they are.
    sides: [&'static str; 2],
    cases: Vec<Case>,
}

/// Prints the tables; what is wrong with them, where that is asked.
fn measure_all(asked: &Asked) -> Vec<String> {
    if cfg!(debug_assertions) {
        println!("Not built for release: these times say little.\n");
    }
    let (limits, tables) = (limits::limits(), tables());
    let mut broken = unlike(&limits, &tables);
    for mut table in tables {
        table.cases.retain(|case| case.name.contains(&asked.only));
        broken.extend(measure_table(&mut table, &limits, asked.check));
    }
    match asked.check {
        true => broken,
        false => Vec::new(),
    }
}

/// Prints a table, if it has rows; those that are above their limits.
fn measure_table(table: &mut Table, limits: &[Limit], check: bool) -> Vec<String> {
    let mut broken = Vec::new();
    if table.cases.is_empty() {
        return broken;
    }
    let [first, second] = table.sides;
    print_row("", [first, second, "Ratio", "Limit"]);
    println!("|---|---:|---:|---:|---:|");
    for case in &mut table.cases {
        let limit = limit_of(limits, &case.name);
        let times = measure(case, limit.filter(|_| check));
        let [first, second, ratio] = times.columns();
        let shown = limit.map_or_else(|| "none".to_owned(), |limit| format!("{limit:?}"));
        print_row(&case.name, [&first, &second, &ratio, &shown]);
        if limit.is_some_and(|limit| times.ratio() > limit) {
            let name = &case.name;
            broken.push(format!("{name} is above its limit, {shown}: {ratio}"));
        }
    }
    println!();
    broken
}

fn tables() -> [Table; 2] {
    let calls = [
        frames::cases(),
        boxes::cases(),
        heads::cases(),
        second::cases(),
    ];
    let advances = [boxes::advances(), heads::advances(), second::advances()];
    [
        Table {
            sides: ["Proved", "Plain"],
            cases: calls.into_iter().flatten().collect(),
        },
        Table {
            sides: ["Advance", "Tick"],
            cases: advances.into_iter().flatten().collect(),
        },
    ]
}

/// Measures a case, and again where it is above this limit; the best of it.
fn measure(case: &mut Case, limit: Option<f64>) -> Times {
    let mut best = case.measure();
    for _ in 1..TRIES {
        if limit.is_none_or(|limit| best.ratio() <= limit) {
            break;
        }
        let again = case.measure();
        if again.ratio() < best.ratio() {
            best = again;
        }
    }
    best
}

/// Rows that are measured and have no limit, and the other way round.
fn unlike(limits: &[Limit], tables: &[Table]) -> Vec<String> {
    let cases = || tables.iter().flat_map(|table| &table.cases);
    let is_measured = |name: &str| cases().any(|case| case.name == name);
    let unlimited = cases()
        .filter(|case| limit_of(limits, &case.name).is_none())
        .map(|case| format!("docs/PERFORMANCE.md has no limit for: {}", case.name));
    let unmeasured = limits
        .iter()
        .filter(|(name, _)| !is_measured(name))
        .map(|(name, _)| format!("docs/PERFORMANCE.md has a row that isn't measured: {name}"));
    unlimited.chain(unmeasured).collect()
}

fn print_row(name: &str, [first, second, ratio, limit]: [&str; 4]) {
    println!("| {name:<43} | {first:>9} | {second:>9} | {ratio:>7} | {limit:>5} |");
}

#[cfg(test)]
mod tests {
    use super::*;

    #[test]
    fn options_are_followed() {
        for words in [
            &["--only", "a=b", "--check"][..],
            &["--only=a=b", "--check"],
        ] {
            let words: Vec<String> = words.iter().map(|word| (*word).to_owned()).collect();
            let asked = asked(Options::new(&words)).unwrap();
            assert!(asked.check && asked.only == "a=b");
        }
        let missing = asked(Options::new(&["--only".to_owned()])).err();
        assert_eq!(missing.as_deref(), Some("--only needs a text"));
    }

    #[test]
    fn the_page_has_a_limit_for_every_row_and_no_other() {
        assert_eq!(unlike(&limits::limits(), &tables()), [""; 0]);
    }
}
