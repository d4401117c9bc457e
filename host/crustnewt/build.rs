//! Links the proved library: `libcrustnewt.a` in the folder that
//! `CRUSTNEWT_LIB` names, or in `target/staticlib` at the repository's root.
//!
//! It is copied to where cargo builds and linked from there, and the usual
//! folder is told by its way from this crate, so a built tree can be moved.

use std::path::{Path, PathBuf};
use std::{env, fs, io};

const ARCHIVE: &str = "libcrustnewt.a";
/// From this crate's folder, in which cargo runs this.
const USUAL_FOLDER: &str = "../../target/staticlib";

fn main() {
    println!("cargo:rerun-if-env-changed=CRUSTNEWT_LIB");
    let named = env::var_os("CRUSTNEWT_LIB").filter(|folder| !folder.is_empty());
    let folder = named.map_or_else(
        || USUAL_FOLDER.into(),
        |folder| from_the_user(folder.into()),
    );
    let archive = folder.join(ARCHIVE);
    println!("cargo:rerun-if-changed={}", archive.display());
    let built = PathBuf::from(env::var_os("OUT_DIR").expect("cargo sets it"));
    if let Err(error) = copy(&archive, &built.join(ARCHIVE)) {
        explain(&archive, &error);
        std::process::exit(1);
    }
    println!("cargo:rustc-link-search=native={}", built.display());
    println!("cargo:rustc-link-lib=static=crustnewt");
}

/// A relative folder is meant from where the user stands, not from here.
fn from_the_user(folder: PathBuf) -> PathBuf {
    if folder.is_absolute() {
        return folder;
    }
    println!("cargo:rerun-if-env-changed=PWD");
    let stands = env::var_os("PWD").map_or_else(PathBuf::new, PathBuf::from);
    stands.join(folder)
}

/// Without the mode of the file, which may be read-only.
fn copy(from: &Path, to: &Path) -> io::Result<()> {
    fs::write(to, fs::read(from)?)
}

fn explain(archive: &Path, error: &io::Error) {
    let archive = std::path::absolute(archive).unwrap_or_else(|_| archive.to_owned());
    eprintln!(
        "The proved library can't be had from {}: {error}.\n\
         `./night` and `./test` at the repository's root build it, and so does\n\
         `.ci/library build` there. If you have it elsewhere, set CRUSTNEWT_LIB to its\n\
         folder.",
        archive.display()
    );
}
