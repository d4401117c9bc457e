//! The types of the list.

use super::Check;
use crate::reading::{Listed, READING};
use crate::scope::Thing;
use std::collections::BTreeSet;

impl Check<'_> {
    pub(super) fn types(&mut self) {
        let reached = self.reach.found.keys();
        let types = reached.filter_map(|thing| match thing {
            Thing::Type(owner, name) => Some((owner.clone(), name.clone())),
            _ => None,
        });
        let mut missing: BTreeSet<(String, String)> = types.collect();
        for row in &self.reading.types {
            self.types_of(row, &mut missing);
        }
        for (owner, name) in missing {
            let what = format!("the type `{name}` is reached, and isn't in {READING}");
            self.errors.push(format!("crates/{owner}/src: {what}"));
        }
    }

    fn types_of(&mut self, row: &Listed, missing: &mut BTreeSet<(String, String)>) {
        let path = &row.file.path;
        let Some(code) = self.tree.code.iter().find(|code| code.path == *path) else {
            self.listed(row.line, format!("there is no file {path}"));
            return;
        };
        for name in &row.file.names {
            if !missing.remove(&(code.owner.clone(), name.clone())) {
                self.listed(
                    row.line,
                    format!("nothing reaches a type `{name}` of {path}"),
                );
            }
        }
        let types = code.source.types.iter();
        let named = types.filter(|of| row.file.names.contains(&of.name));
        let lines = named.map(|of| of.lines).sum();
        if row.lines != Some(lines) {
            self.listed(
                row.line,
                format!("these types of {path} have {lines} lines"),
            );
        }
    }
}
