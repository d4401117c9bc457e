//! The scripts at the repository's root answer for their words before they
//! start anything.
//!
//! Each is run with commands on its PATH that do nothing but say that they
//! were called.
#![cfg(unix)]

use std::ffi::OsString;
use std::fs;
use std::os::unix::fs::PermissionsExt;
use std::path::{Path, PathBuf};
use std::process::{Command, Output};
use std::sync::{Mutex, MutexGuard, PoisonError};

/// From this crate's folder, in which cargo runs a test.
const ROOT: &str = "../..";

const SCRIPTS: [&str; 5] = ["bench", "install", "night", "show", "test"];

/// Held by each test from its first file to its last command. A command that
/// another test starts holds, until it has begun, each file that is being
/// written here; and a file that is held open for writing can't be run.
fn alone() -> MutexGuard<'static, ()> {
    static RUNNING: Mutex<()> = Mutex::new(());
    RUNNING.lock().unwrap_or_else(PoisonError::into_inner)
}

/// A folder of this name, beside what cargo builds.
fn temporary(name: &str) -> PathBuf {
    let test = std::env::current_exe().unwrap();
    let target = test.ancestors().nth(3).expect("target/PROFILE/deps/TEST");
    let folder = target.join("tmp").join(name);
    fs::create_dir_all(&folder).unwrap();
    folder
}

/// A PATH on which `rt`, `cargo` and `cc` are found as this shell script.
fn path_with(name: &str, script: &str) -> OsString {
    let folder = temporary(name);
    for command in ["rt", "cargo", "cc"] {
        let file = folder.join(command);
        fs::write(&file, format!("#!/bin/sh\n{script}\n")).unwrap();
        fs::set_permissions(&file, fs::Permissions::from_mode(0o755)).unwrap();
    }
    let usual = std::env::var_os("PATH").unwrap();
    let folders = [folder].into_iter().chain(std::env::split_paths(&usual));
    std::env::join_paths(folders).unwrap()
}

/// Runs a script of the root; it must not come to call anything.
fn run(script: &str, words: &[&str]) -> Output {
    let path = path_with("starts-nothing", "echo started >&2\nexit 1");
    let mut command = Command::new(Path::new(ROOT).join(script));
    command.args(words).env("PATH", path);
    command.env_remove("CRUSTNEWT_LIB");
    let output = command.output().unwrap();
    assert!(!text(&output.stderr).contains("started"), "{script}");
    output
}

fn text(octets: &[u8]) -> &str {
    std::str::from_utf8(octets).unwrap()
}

#[test]
fn help_starts_nothing() {
    let _alone = alone();
    for script in SCRIPTS {
        for word in ["--help", "-h"] {
            let output = run(script, &[word]);
            assert_eq!(output.status.code(), Some(0), "{script}");
            let usage = format!("Usage: ./{script}");
            assert!(text(&output.stdout).starts_with(&usage), "{script}");
            assert!(output.stderr.is_empty());
        }
    }
    let help = include_str!("../help/night.txt");
    let output = run("night", &["--boxes", "4", "--help"]);
    assert_eq!(text(&output.stdout), help);
}

#[test]
fn wrong_words_are_refused_in_two_lines_and_start_nothing() {
    let _alone = alone();
    for (script, words, fault) in [
        ("bench", &["--chekc"][..], "unknown option '--chekc'"),
        ("install", &["--prefix"], "--prefix needs a folder"),
        ("install", &["/usr"], "unknown argument '/usr'"),
        ("night", &["--boxs=4"], "unknown option '--boxs=4'"),
        ("night", &["--boxes", "4", "-x"], "unknown option '-x'"),
        ("show", &["--all"], "unknown option '--all'"),
        ("show", &["a", "b"], "there is more than one FILE"),
        ("test", &["--fast"], "unknown argument '--fast'"),
        ("test", &["crates"], "unknown argument 'crates'"),
    ] {
        let output = run(script, words);
        assert_eq!(output.status.code(), Some(2), "{script} {words:?}");
        assert!(output.stdout.is_empty());
        let help = format!("./{script} --help tells what there is");
        let expected = format!("{script}: {fault}\n{script}: {help}\n");
        assert_eq!(text(&output.stderr), expected);
    }
}

/// What `./test` says first, where `rt version` prints this and `rt` refuses
/// all else.
fn test_begins(version: &str) -> String {
    let name = format!("toolchain-{}", version.len());
    let script = format!("[ \"$1\" = version ] && echo '{version}'");
    let mut command = Command::new(Path::new(ROOT).join("test"));
    let output = command
        .env("PATH", path_with(&name, &script))
        .output()
        .unwrap();
    assert_eq!(output.status.code(), Some(1));
    text(&output.stdout).to_owned()
}

#[test]
fn the_gate_tells_the_toolchain_of_the_proofs() {
    let _alone = alone();
    let made = include_str!("../../../.ci/toolchain").trim_end();
    let same = format!("test: the proofs were made with this toolchain, {made}\n");
    assert_eq!(test_begins(made), same);
    let other = format!(
        "test: the proofs were made with the toolchain {made}; this is another one, \
         which may refuse some of them\n"
    );
    assert_eq!(test_begins("another one"), other);
}

#[test]
fn a_relative_library_is_meant_from_where_the_user_stands() {
    let _alone = alone();
    let stands = temporary("stands");
    fs::create_dir_all(stands.join("lib")).unwrap();
    fs::write(stands.join("lib/libcrustnewt.a"), "").unwrap();
    let library = fs::canonicalize(ROOT).unwrap().join(".ci/library");
    for (folder, status) in [("lib", 0), ("./lib", 0), ("other", 2)] {
        let mut command = Command::new(&library);
        command.arg("try").current_dir(&stands);
        let output = command.env("CRUSTNEWT_LIB", folder).output().unwrap();
        assert_eq!(output.status.code(), Some(status), "{folder}");
    }
}

/// What the prover says of a crate whose function `f` has another condition
/// than its proof: names alone are missing until the proof has them too, and
/// then a fact fails.
const PROVER: &str = r#"
grep -q 'if d < 0' src/lib.rt && exit 0
if grep -q 'd-lt0' proofs/f/Answers.antt; then
    echo './proofs/f/Answers.antt:3:1: error: `returns-then-d-lt0`: module `Goals` has no `returns-then-d-lt0` that can be named from here (names in it that begin alike: `returns`)'
    echo 'note: src/lib.rt:2:5: it is not proved that what the function ensures holds when it returns (`returns-then-d-lt1`)'
    echo 'fn one::f: not proved'
    echo 'help: `Goals` has no `returns-then-d-lt0`; rattle asks for `returns`, `returns-then-d-lt1`; a `use` line of it can name these places: `Then-d-lt1`'
else
    echo './proofs/f/Answers.antt:4:1: error: `returns-then-d-lt1`: the two types differ'
    echo 'fn one::f: not proved'
fi
echo 'note: src/lib.rt:7:5: it is not proved that what the function ensures holds when it returns (`returns`)'
echo 'fn one::g: no proof: expected answers in ./proofs/g/Answers.antt; `search` did not prove `returns`'
echo 'fn one::h: not proved; it calls `one::f`, which is not proved'
exit 1"#;

/// What `.ci/refused` says of a crate with an edit whose wrong answer is to be
/// refused at this place.
fn refused_at(name: &str, place: &str, prover: &str) -> Output {
    let root = temporary(name);
    let crate_folder = root.join("crates/one");
    for folder in ["src", "must-fail", "proofs/f"] {
        fs::create_dir_all(crate_folder.join(folder)).unwrap();
    }
    fs::create_dir_all(root.join(".ci")).unwrap();
    for script in [".ci/common", ".ci/refused"] {
        fs::copy(Path::new(ROOT).join(script), root.join(script)).unwrap();
    }
    let answers = "returns-then-d-lt0 c = x\nreturns c = y\n";
    let edit = format!(
        "# one_is_not_zero, {place}: why\nfile: src/lib.rt\nold: if d < 0 {{\nnew: if d < 1 {{\n"
    );
    for (file, text) in [
        ("crates.txt", "one:\n"),
        ("crates/one/src/lib.rt", "fn f() {\n    if d < 0 {\n"),
        ("crates/one/proofs/f/Answers.antt", answers),
        ("crates/one/must-fail/wrong_answers.edit", &edit),
    ] {
        fs::write(root.join(file), text).unwrap();
    }
    let mut command = Command::new(root.join(".ci/refused"));
    let path = path_with(&format!("{name}-prover"), prover);
    command.arg("one").env("PATH", path).output().unwrap()
}

#[test]
fn a_wrong_answer_is_refused_by_a_fact_of_its_own_place() {
    let _alone = alone();
    for (number, place) in ["f", "f.returns-then-d-lt0", "g", "g.returns"]
        .into_iter()
        .enumerate()
    {
        let output = refused_at(&format!("refused-{number}"), place, PROVER);
        let said = "refused: 1 wrong answers, each by a fact of its own place\n";
        assert_eq!(text(&output.stdout), said, "{place}");
        assert_eq!(output.status.code(), Some(0));
    }
    for (number, place) in ["h", "g.returns-2", "f.returns", "Page.law"]
        .into_iter()
        .enumerate()
    {
        let output = refused_at(&format!("not-refused-{number}"), place, PROVER);
        assert_eq!(output.status.code(), Some(1), "{place}");
        let edit = "crates/one/must-fail/wrong_answers.edit";
        let said = format!("refused: {edit}: one_is_not_zero: no fact of {place} fails\n");
        assert_eq!(text(&output.stderr), said);
    }
}

#[test]
fn edits_of_a_crate_that_is_not_proved_are_not_tried() {
    let _alone = alone();
    let output = refused_at("unproved", "f", "echo 'fn one::f: not proved'\nexit 1");
    assert_eq!(output.status.code(), Some(1));
    let said = "fn one::f: not proved\nrefused: the crates as they stand are not proved\n";
    assert_eq!(text(&output.stderr), said);
}

#[test]
fn what_rests_on_a_refused_fact_is_no_fact_of_its_own() {
    let _alone = alone();
    let prover = r#"
grep -q 'if d < 0' src/lib.rt && exit 0
echo './proofs/Base.antt:3:1: error: `below`: the two types differ'
echo './proofs/Above.antt:5:1: error: 2 declarations that depend on `below`, which was rejected, were not checked: law, other'
exit 1"#;
    let output = refused_at("rests-on-base", "Base", prover);
    assert_eq!(output.status.code(), Some(0));
    let output = refused_at("rests-on-above", "Above", prover);
    assert_eq!(output.status.code(), Some(1));
}
