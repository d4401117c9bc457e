//! The program's options and its exit statuses.

use std::process::{Command, Output};

/// Runs the program, which stands beside this test.
fn fuzz(words: &[&str]) -> Output {
    let test = std::env::current_exe().unwrap();
    let profile = test.ancestors().nth(2).expect("target/PROFILE/deps/TEST");
    let mut command = Command::new(profile.join("fuzz"));
    command.args(words).output().unwrap()
}

fn text(octets: &[u8]) -> &str {
    std::str::from_utf8(octets).unwrap()
}

#[test]
fn options_are_followed() {
    let [words, joined] = [
        &["--cases", "2", "--seed", "9"][..],
        &["--cases=2", "--seed=9"],
    ]
    .map(fuzz);
    assert_eq!(joined.status.code(), Some(0));
    let told = text(&joined.stdout);
    assert!(told.starts_with("120 calls from seed 9 on, every promise kept\n"));
    assert_eq!(words.stdout, joined.stdout);
}

#[test]
fn wrong_options_are_told_in_two_lines() {
    for (words, fault) in [
        (&["--case=2"][..], "unknown option `--case`"),
        (&["--cases"], "--cases needs a number"),
        (&["2"], "`2` is no option"),
    ] {
        let output = fuzz(words);
        assert_eq!(output.status.code(), Some(2));
        let help = "`fuzz --help` tells what there is";
        assert_eq!(
            text(&output.stderr),
            format!("fuzz: {fault}\nfuzz: {help}\n")
        );
    }
    let help = fuzz(&["--help"]);
    assert!(help.status.success() && text(&help.stdout).starts_with("Usage: fuzz"));
}
