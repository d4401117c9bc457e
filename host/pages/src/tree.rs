//! The crates of the repository.

use crate::page::Page;
use crate::source::Source;
use std::collections::{BTreeMap, BTreeSet};
use std::path::{Path, PathBuf};
use std::{fs, io};

/// A page and where it stands.
pub struct File {
    /// The crate.
    pub owner: String,
    /// `specs.Page` or `proofs.Folder.Page`.
    pub module: String,
    /// From the repository's root.
    pub path: String,
    /// What it says.
    pub page: Page,
}

/// A file of code and where it stands.
pub struct Code {
    /// The crate.
    pub owner: String,
    /// From the repository's root.
    pub path: String,
    /// What it says.
    pub source: Source,
}

/// Pages and code of every crate.
#[derive(Default)]
pub struct Tree {
    /// The pages, those of `proofs/` among them.
    pub files: Vec<File>,
    /// The code.
    pub code: Vec<Code>,
    /// Each crate, as `crates.txt` has them, and what it rests on.
    pub crates: Vec<(String, Vec<String>)>,
    /// The comments of `crates.txt`, each with the crates below it.
    pub families: Vec<(String, Vec<String>)>,
    places: BTreeMap<(String, String), usize>,
}

impl Tree {
    /// Reads the repository in this folder; not the proofs of functions, which nothing names.
    pub fn read(root: &Path) -> io::Result<Tree> {
        let mut tree = Tree::new(&fs::read_to_string(root.join("crates.txt"))?);
        let owners: Vec<String> = tree.crates.iter().map(|(name, _)| name.clone()).collect();
        for owner in owners {
            for part in ["specs", "proofs", "src"] {
                let mut found = Vec::new();
                walk(&root.join("crates").join(&owner).join(part), &mut found)?;
                found.sort();
                for path in found {
                    let below = path.strip_prefix(root).unwrap_or(&path);
                    tree.add(&below.display().to_string(), &fs::read_to_string(&path)?);
                }
            }
        }
        Ok(tree)
    }

    /// No files, and these crates.
    pub fn new(crates: &str) -> Tree {
        let mut tree = Tree::default();
        for line in crates.lines() {
            if let Some(title) = line.strip_prefix("# ") {
                tree.families.push((title.to_string(), Vec::new()));
            } else if let Some((name, needs)) = line.split_once(':') {
                // Behind the name may stand what kind of crate it is.
                let name = name.split_whitespace().next().unwrap_or("");
                let needs = needs.split_whitespace().map(str::to_string);
                tree.crates.push((name.to_string(), needs.collect()));
                if let Some((_, members)) = tree.families.last_mut() {
                    members.push(name.to_string());
                }
            }
        }
        tree
    }

    /// Adds `crates/OWNER/PART/..`.
    pub fn add(&mut self, path: &str, text: &str) {
        let mut parts = path.split('/').skip(1);
        let owner = parts.next().unwrap_or("").to_string();
        let below: Vec<&str> = parts.collect();
        let Some(module) = below.join(".").strip_suffix(".antt").map(str::to_string) else {
            self.code.push(Code {
                owner,
                path: path.into(),
                source: Source::parse(text),
            });
            return;
        };
        self.places
            .insert((owner.clone(), module.clone()), self.files.len());
        self.files.push(File {
            owner,
            module,
            path: path.into(),
            page: Page::parse(text),
        });
    }

    /// The page of a crate's module.
    pub fn place(&self, owner: &str, module: &str) -> Option<usize> {
        self.places
            .get(&(owner.to_string(), module.to_string()))
            .copied()
    }

    /// The page at a path.
    pub fn page_at(&self, path: &str) -> Option<usize> {
        self.files.iter().position(|file| file.path == path)
    }

    /// Whether there is such a crate.
    pub fn has(&self, owner: &str) -> bool {
        self.crates.iter().any(|(name, _)| name == owner)
    }

    /// These crates and those that they rest on.
    pub fn below(&self, tops: &BTreeSet<String>) -> BTreeSet<String> {
        let mut found = tops.clone();
        for (name, needs) in self.crates.iter().rev() {
            if found.contains(name) {
                found.extend(needs.iter().cloned());
            }
        }
        found
    }
}

/// Lists of pages, and the proof of a function.
const PASSED_BY: [&str; 3] = ["Lib.antt", "Answers.antt", "Invariants.antt"];

fn walk(folder: &Path, found: &mut Vec<PathBuf>) -> io::Result<()> {
    if !folder.is_dir() {
        return Ok(());
    }
    for entry in fs::read_dir(folder)? {
        let path = entry?.path();
        let name = path
            .file_name()
            .unwrap_or_default()
            .to_string_lossy()
            .to_string();
        let text = name.ends_with(".antt") || name.ends_with(".rt");
        if path.is_dir() {
            walk(&path, found)?;
        } else if text && !PASSED_BY.contains(&name.as_str()) {
            found.push(path);
        }
    }
    Ok(())
}

#[cfg(test)]
mod tests {
    use super::*;

    fn tree() -> Tree {
        let mut tree = Tree::new("# base\nclock:\nframe: clock\nother staticlib: clock\n");
        tree.add("crates/clock/specs/Counts.antt", "-- Rule R1: counts.\n");
        tree.add("crates/clock/proofs/Deep/Laws.antt", "");
        tree.add("crates/clock/src/lib.rt", "pub struct Count(pub u32);\n");
        tree
    }

    #[test]
    fn crates_rest_on_each_other() {
        let below = tree().below(&BTreeSet::from(["frame".to_string()]));
        assert_eq!(below.into_iter().collect::<Vec<_>>(), ["clock", "frame"]);
    }

    #[test]
    fn pages_are_found() {
        let tree = tree();
        assert_eq!(tree.place("clock", "specs.Counts"), Some(0));
        assert_eq!(tree.place("clock", "proofs.Deep.Laws"), Some(1));
        assert_eq!(tree.page_at("crates/clock/specs/Counts.antt"), Some(0));
        assert_eq!(tree.place("frame", "specs.Counts"), None);
        assert_eq!(tree.code.len(), 1);
        let members = ["clock", "frame", "other"].map(str::to_string).to_vec();
        assert_eq!(tree.families, [("base".to_string(), members)]);
    }
}
