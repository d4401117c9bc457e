//! Programs that depend on the crate are built, wherever it and they stand.
//!
//! Cargo runs a test in its crate's folder. Paths are taken from there or from
//! the test itself, so that these tests pass in a tree that was moved too.

use std::fs;
use std::path::{Path, PathBuf};
use std::process::Command;

/// The library that this test is linked with.
const ARCHIVE: &[u8] = include_bytes!(concat!(env!("OUT_DIR"), "/libcrustnewt.a"));

/// The program without `std`, at its place in the repository.
const BARE: &str = "../../examples/bare";

/// A folder of this name for what a test builds, beside what cargo builds.
fn temporary(name: &str) -> PathBuf {
    let test = std::env::current_exe().unwrap();
    let target = test.ancestors().nth(3).expect("target/PROFILE/deps/TEST");
    target.join("tmp").join(name)
}

/// Cargo, to build a program with no library named.
fn cargo_build(program: &Path) -> Command {
    let mut cargo = Command::new(std::env::var_os("CARGO").expect("cargo runs this"));
    cargo.args(["build", "--offline", "--manifest-path"]);
    cargo.arg(program.join("Cargo.toml"));
    cargo.env_remove("CARGO_TARGET_DIR");
    cargo
}

/// Whether all went well, and what was said.
fn outcome(mut command: Command) -> (bool, String) {
    let output = command.output().unwrap();
    let said = String::from_utf8_lossy(&output.stderr).into_owned();
    (output.status.success(), said)
}

fn runs(program: impl AsRef<Path>) -> bool {
    Command::new(program.as_ref()).status().unwrap().success()
}

#[test]
fn a_program_without_std_is_built_and_registers_a_box() {
    let target = temporary("bare");
    let build = |feature: Option<&str>| {
        let mut cargo = cargo_build(Path::new(BARE));
        cargo.arg("--target-dir").arg(&target);
        cargo.args(feature.map(|feature| format!("--features=crustnewt/{feature}")));
        outcome(cargo)
    };
    let (built, said) = build(None);
    assert!(built, "{said}");
    assert!(runs(target.join("debug/bare")));
    // With `std` there are two panic handlers: the program is a test of it.
    let (built, said) = build(Some("std"));
    assert!(!built && said.contains("panic_impl"), "{said}");
}

/// A workspace of its own: the crate and a program that uses it.
const WORKSPACE: &str = "members = [\"crustnewt\", \"user\"]";

/// Files of the program.
const USER: [(&str, &str); 2] = [
    (
        "Cargo.toml",
        "[package]\nname = \"user\"\nedition = \"2021\"\n[dependencies]\ncrustnewt = { path = \"../crustnewt\" }\n",
    ),
    (
        "src/main.rs",
        "fn main() {\n    crustnewt::FloorBox::fresh(0x0200_0000_0031).unwrap();\n}\n",
    ),
];

/// A tree with this workspace in its folder `host`, and the library in that
/// folder of it.
fn tree(name: &str, library: &str) -> PathBuf {
    let tree = emptied(name);
    let host = tree.join("host");
    copy_folder(Path::new("."), &host.join("crustnewt"));
    let workspace = fs::read_to_string("../Cargo.toml").unwrap();
    let line = |line| match str::starts_with(line, "members = ") {
        true => WORKSPACE,
        false => line,
    };
    let lines: Vec<&str> = workspace.lines().map(line).collect();
    fs::write(host.join("Cargo.toml"), lines.join("\n")).unwrap();
    for (file, text) in USER {
        write(&host.join("user").join(file), text.as_bytes());
    }
    write(&tree.join(library).join("libcrustnewt.a"), ARCHIVE);
    tree
}

/// A folder of this name in which nothing is left of an earlier run.
fn emptied(name: &str) -> PathBuf {
    let folder = temporary(name);
    if folder.exists() {
        fs::remove_dir_all(&folder).unwrap();
    }
    folder
}

/// Writes a file, with the folders on its way.
fn write(file: &Path, octets: &[u8]) {
    fs::create_dir_all(file.parent().unwrap()).unwrap();
    fs::write(file, octets).unwrap();
}

fn copy_folder(from: &Path, to: &Path) {
    for entry in fs::read_dir(from).unwrap() {
        let entry = entry.unwrap();
        let (path, copied) = (entry.path(), to.join(entry.file_name()));
        match path.is_dir() {
            true => copy_folder(&path, &copied),
            false => write(&copied, &fs::read(path).unwrap()),
        }
    }
}

#[test]
fn a_built_tree_can_be_moved() {
    let first = tree("moved-from", "target/staticlib");
    let moved = emptied("moved-to");
    let build = |tree: &Path| {
        let mut cargo = cargo_build(&tree.join("host"));
        cargo.env_remove("CRUSTNEWT_LIB");
        let (built, said) = outcome(cargo);
        assert!(built, "{said}");
    };
    build(&first);
    fs::rename(&first, &moved).unwrap();
    // Something is built anew with what the crate's build has left.
    write(&moved.join("host/user/src/main.rs"), USER[1].1.as_bytes());
    build(&moved);
    assert!(runs(moved.join("host/target/debug/user")));
}

#[test]
fn a_relative_folder_is_meant_from_where_the_user_stands() {
    let tree = tree("relative", "lib");
    let host = tree.join("host");
    let build = |folder: &str, stands: &Path| {
        let mut cargo = cargo_build(&host);
        cargo.current_dir(stands).env("PWD", stands);
        cargo.env("CRUSTNEWT_LIB", folder);
        outcome(cargo)
    };
    let (built, said) = build("lib", &host);
    assert!(!built && said.contains("host/lib/libcrustnewt.a"), "{said}");
    for (folder, stands) in [("lib", &tree), ("../lib", &host)] {
        let (built, said) = build(folder, stands);
        assert!(built, "{said}");
    }
    assert!(runs(host.join("target/debug/user")));
}
