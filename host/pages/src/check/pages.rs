//! The pages of the list.

use super::Check;
use crate::item::Kind;
use crate::reading::{Listed, READING};
use crate::rules;
use crate::scope::Thing;
use crate::tree::File;
use std::collections::BTreeMap;

/// What a page to believe begins with.
const BELIEVED: [&str; 4] = ["Rule", "Rules", "Statement", "Face"];

/// What any other page begins with.
const ASIDE: [&str; 2] = ["Lemmas", "Code"];

impl Check<'_> {
    pub(super) fn pages(&mut self) {
        let mut seen = BTreeMap::new();
        for page in &self.reading.pages {
            let path = &page.file.path;
            if let Some(first) = seen.insert(path, page.line) {
                let what = format!("{path} is listed already, line {first}");
                self.listed(page.line, what);
            }
            match self.tree.page_at(path) {
                None => self.listed(page.line, format!("there is no page {path}")),
                Some(place) => self.page(place, page),
            }
        }
    }

    fn page(&mut self, place: usize, listed: &Listed) {
        let file = &self.tree.files[place];
        let things = (0..file.page.items.len()).map(|at| Thing::Item(place, at));
        let reached = things.filter(|thing| self.reach.found.contains_key(thing));
        if reached.count() == 0 {
            self.listed(listed.line, format!("nothing reaches {}", file.path));
        } else {
            self.strays(place, listed);
        }
        if listed.lines != Some(file.page.lines) {
            let what = format!("{} has {} lines", file.path, file.page.lines);
            self.listed(listed.line, what);
        }
        self.rules_of(file, listed);
    }

    /// What nothing reaches stands on a listed page only if its row says so.
    fn strays(&mut self, place: usize, listed: &Listed) {
        let file = &self.tree.files[place];
        let mut beside = listed.file.names.clone();
        for (at, item) in file.page.items.iter().enumerate() {
            let thing = Thing::Item(place, at);
            let reached = self.reach.found.contains_key(&thing);
            let stated = self.reach.theorems.contains(&thing);
            if item.kind == Kind::Open || reached || stated {
                continue;
            }
            match beside.iter().position(|name| *name == item.name) {
                Some(at) => drop(beside.remove(at)),
                None => self.at(&thing, "is not reached, and its page is listed"),
            }
        }
        for name in beside {
            let what = format!("{} has no `{name}` that nothing reaches", file.path);
            self.listed(listed.line, what);
        }
    }

    fn rules_of(&mut self, file: &File, listed: &Listed) {
        let rules = self.rules.clone();
        for rule in listed.rules.difference(&rules) {
            self.listed(listed.line, format!("there is no rule R{rule}"));
        }
        let (said, _) = file.page.heading.split_once(':').unwrap_or_default();
        if rules::named(said) != listed.rules {
            let what = format!("the heading of {} has other rules: {said}", file.path);
            self.listed(listed.line, what);
        }
    }

    /// A listed page begins with its rules, as a statement or as a layout of the C face, any other as lemmas or code.
    pub(super) fn headings(&mut self) {
        let listed = self.listed_paths();
        let files = self.tree.files.iter();
        for file in files.filter(|file| file.module.starts_with("specs.")) {
            let (kind, _) = file.page.heading.split_once(':').unwrap_or_default();
            let first = kind.split(' ').next().unwrap_or("");
            let believed = BELIEVED.contains(&first);
            let aside = ASIDE.contains(&kind);
            let what = match (believed, aside, listed.contains(&file.path)) {
                (false, false, _) => {
                    format!(
                        "begins with none of: {}",
                        [&BELIEVED[..], &ASIDE].concat().join(", ")
                    )
                }
                (true, _, false) => format!("begins as a page to believe, and isn't in {READING}"),
                (_, true, true) => format!("is in {READING}, and begins as {kind}"),
                _ if first.starts_with("Rule") && rules::named(kind).is_empty() => {
                    "begins with rules, and names none".to_string()
                }
                _ => continue,
            };
            self.errors.push(format!("{}:1: {what}", file.path));
        }
    }
}
