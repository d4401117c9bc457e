//! Wrong answers: the `# name, place: why` lines of the must-fail edits.

use std::collections::BTreeSet;
use std::path::Path;
use std::{fs, io};

/// Every wrong answer, as `crate::name`.
pub fn wrong_answers(root: &Path) -> io::Result<BTreeSet<String>> {
    let mut found = BTreeSet::new();
    for entry in fs::read_dir(root.join("crates"))? {
        let folder = entry?.path();
        let owner = folder.file_name().unwrap_or_default().to_string_lossy();
        let edits = folder.join("must-fail");
        if !edits.is_dir() {
            continue;
        }
        for edit in fs::read_dir(edits)? {
            let path = edit?.path();
            if path.extension().is_some_and(|ending| ending == "edit") {
                let text = fs::read_to_string(path)?;
                found.extend(
                    text.lines()
                        .filter_map(name)
                        .map(|name| format!("{owner}::{name}")),
                );
            }
        }
    }
    Ok(found)
}

fn name(line: &str) -> Option<&str> {
    let (name, rest) = line.strip_prefix("# ")?.split_once(", ")?;
    let plain = |c: char| c.is_ascii_lowercase() || c.is_ascii_digit() || c == '_';
    (name.chars().all(plain) && rest.contains(": ")).then_some(name)
}

#[cfg(test)]
mod tests {
    use super::*;

    #[test]
    fn a_line_names_a_wrong_answer() {
        assert_eq!(
            name("# now_is_past, Count::is_past: A count"),
            Some("now_is_past")
        );
        assert_eq!(name("# Wrong answers, one in each: of these"), None);
        assert_eq!(name("old: now_is_past, x: y"), None);
        assert_eq!(name("# now_is_past, no place"), None);
    }
}
