//! Help, version, errors and exit statuses of the program.

use std::path::PathBuf;
use std::process::{Command, Output, Stdio};

/// The program beside this test: the tree may have been moved since it was
/// built.
fn program() -> PathBuf {
    let test = std::env::current_exe().unwrap();
    let profile = test.ancestors().nth(2).expect("target/PROFILE/deps/TEST");
    profile.join("crustnewt")
}

fn crustnewt(words: &[&str]) -> Output {
    Command::new(program())
        .args(words)
        .stdin(Stdio::null())
        .output()
        .unwrap()
}

fn text(octets: &[u8]) -> &str {
    std::str::from_utf8(octets).unwrap()
}

#[test]
fn help_is_on_standard_output() {
    for (words, help) in [
        (&["help"][..], "crustnewt COMMAND"),
        (&["--help"], "crustnewt COMMAND"),
        (&["help", "replay"], "crustnewt replay"),
        (&["help", "night"], "crustnewt night"),
        (&["replay", "--help"], "crustnewt replay"),
        (&["night", "--boxes", "3", "--help"], "crustnewt night"),
        (&["night", "-h"], "crustnewt night"),
    ] {
        let output = crustnewt(words);
        assert_eq!(output.status.code(), Some(0), "{words:?}");
        let told = text(&output.stdout);
        assert!(told.starts_with("Usage: ") && told.contains(help), "{told}");
        assert!(told.ends_with(".\n") || told.ends_with("text\n"), "{told}");
        assert!(output.stderr.is_empty());
    }
    let replay = crustnewt(&["replay", "--help"]);
    assert!(text(&replay.stdout).contains("docs/REPLAY.md"));
}

#[test]
fn the_version_is_three_numbers() {
    for word in ["--version", "-V"] {
        let output = crustnewt(&[word]);
        assert_eq!(output.status.code(), Some(0));
        let told = text(&output.stdout).strip_prefix("crustnewt ").unwrap();
        let numbers = told.strip_suffix('\n').unwrap().split('.');
        let numbers: Vec<u32> = numbers.map(|number| number.parse().unwrap()).collect();
        assert_eq!(numbers.len(), 3);
    }
}

#[test]
fn bad_usage_is_status_two_and_two_lines() {
    for (words, fault) in [
        (&[][..], "no command given"),
        (&["walk"], "unknown command `walk`"),
        (&["help", "replay", "now"], "no help for `replay now`"),
        (&["--version", "now"], "unknown option `now`"),
        (&["replay", "--fast"], "unknown option `--fast`"),
        (&["replay", "script"], "`script` is no option"),
        (&["replay", "--plain=1"], "--plain takes no value"),
        (
            &["night", "--boxes", "65"],
            "--boxes needs a number from 1 to 64",
        ),
        (
            &["night", "--boxes=0"],
            "--boxes needs a number from 1 to 64",
        ),
        (&["night", "--loss"], "--loss needs a number from 0 to 1000"),
        (
            &["night", "--busy=65"],
            "--busy needs a number from 0 to 64",
        ),
        (&["night", "--seed=x"], "--seed needs a number"),
        (&["night", "--every-tick=1"], "--every-tick takes no value"),
        (
            &["night", "--scenario", "noon"],
            "--scenario needs one of: quiet, floor31, storm, dark",
        ),
    ] {
        let output = crustnewt(words);
        assert_eq!(output.status.code(), Some(2), "{words:?}");
        assert!(output.stdout.is_empty());
        let lines: Vec<&str> = text(&output.stderr).lines().collect();
        assert_eq!(lines[0], format!("crustnewt: {fault}"));
        assert!(lines.len() == 2 && lines[1].contains(" --help` "));
    }
}

#[test]
fn an_empty_script_answers_nothing() {
    for words in [
        &["replay"][..],
        &["replay", "--proved"],
        &["replay", "--plain"],
    ] {
        let output = crustnewt(words);
        assert_eq!(output.status.code(), Some(0));
        assert!(output.stdout.is_empty() && output.stderr.is_empty());
    }
}

#[test]
fn a_night_in_a_pipe_shows_no_progress() {
    let output = crustnewt(&["night", "--boxes", "1", "--seconds", "1"]);
    assert_eq!(output.status.code(), Some(0));
    assert!(output.stderr.is_empty());
    assert!(text(&output.stdout).contains("begins: 1 box asks to register\n"));
}

#[test]
fn a_value_may_stand_behind_an_equals_sign() {
    let [words, joined] = [
        &[
            "night",
            "--boxes",
            "2",
            "--seconds",
            "1",
            "--scenario",
            "quiet",
        ][..],
        &["night", "--boxes=2", "--seconds=1", "--scenario=quiet"],
    ]
    .map(crustnewt);
    assert_eq!(joined.status.code(), Some(0));
    assert!(text(&joined.stdout).contains("begins: 2 boxes ask to register\n"));
    assert_eq!(words.stdout, joined.stdout);
}
