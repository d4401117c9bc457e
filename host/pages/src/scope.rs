//! What names stand for.

use crate::import::Import;
use crate::item::Kind;
use crate::mention::Mention;
use crate::tree::Tree;
use std::collections::{BTreeMap, BTreeSet};

/// What a name stands for.
#[derive(Clone, Debug, PartialEq, Eq, PartialOrd, Ord)]
pub enum Thing {
    /// A declaration: its page and its place there.
    Item(usize, usize),
    /// A type of a crate's code.
    Type(String, String),
    /// Something of the kit's library.
    Library,
    /// Something that the kit makes of a crate's code.
    Made(String),
}

/// Names that the kit has in every file.
const PRELUDE: [&str; 18] = [
    "Type", "Unit", "tt", "⊥", "¬", "absurd", "rw", "omega", "cc", "search", "simp", "at", "←",
    "elim", "|", "[", "]", "↦",
];

/// What the names of a page, or of a file's contracts, stand for.
#[derive(Default)]
pub struct Scope {
    names: BTreeMap<String, Thing>,
    parts: BTreeMap<String, Thing>,
    modules: BTreeMap<String, Vec<String>>,
    constructors: BTreeSet<String>,
    /// Names that are brought in and not found.
    pub missing: Vec<(usize, String)>,
}

/// What an operator's name has for its places.
const PLACE: char = '◌';

/// What is left of an operator's name without its places.
fn parts(name: &str) -> impl Iterator<Item = &str> {
    let operator = name.contains(PLACE);
    name.split(PLACE)
        .filter(move |part| operator && !part.is_empty())
}

impl Scope {
    /// Of these `use` lines.
    pub fn of_imports(tree: &Tree, imports: &[Import]) -> Scope {
        let mut scope = Scope::default();
        for import in imports {
            if let Some(module) = &import.module {
                scope.modules.insert(module.clone(), import.path.clone());
            }
            for (from, to) in &import.names {
                scope.bring(tree, import, from, to);
            }
        }
        scope
    }

    /// Of a page.
    pub fn of_page(tree: &Tree, place: usize) -> Scope {
        let page = &tree.files[place].page;
        let mut scope = Scope::of_imports(tree, &page.imports);
        for (at, item) in page.items.iter().enumerate() {
            if item.kind != Kind::Open {
                scope.add(&item.name, Thing::Item(place, at));
            }
            for other in &item.others {
                scope.add(other, Thing::Item(place, at));
                if item.kind == Kind::Type {
                    scope.add_constructor(other);
                }
            }
        }
        scope
    }

    fn bring(&mut self, tree: &Tree, import: &Import, from: &str, to: &str) {
        let Some(thing) = named(tree, &import.path, from) else {
            self.missing
                .push((import.line, format!("{}.{from}", import.path.join("."))));
            return;
        };
        let variant = import.path.last().is_some_and(|part| part == "TheVariants");
        let member = match &thing {
            Thing::Item(place, at) => tree.files[*place].page.items[*at].name != from,
            _ => false,
        };
        if variant || member {
            self.add_constructor(to);
        }
        self.add(to, thing);
    }

    fn add(&mut self, name: &str, thing: Thing) {
        for part in parts(name) {
            self.parts.insert(part.to_string(), thing.clone());
        }
        self.names.insert(name.to_string(), thing);
    }

    fn add_constructor(&mut self, name: &str) {
        self.constructors.insert(name.to_string());
        self.constructors.extend(parts(name).map(str::to_string));
    }

    /// Whether a word of a pattern is a constructor, or part of one.
    pub fn is_constructor(&self, word: &str) -> bool {
        self.constructors.contains(word)
    }

    /// The declaration of a crate that a name stands for.
    pub fn is_item(&self, name: &str) -> bool {
        matches!(self.names.get(name), Some(Thing::Item(_, _)))
    }

    /// What a mention stands for; nothing where that is not known.
    pub fn find(&self, tree: &Tree, mention: &Mention) -> Vec<Thing> {
        let (first, last) = (&mention[0], &mention[mention.len() - 1]);
        let whole = (first == "Rattle").then(|| vec![first.clone()]);
        if let (Some(module), true) = (
            self.modules.get(first).cloned().or(whole),
            mention.len() > 1,
        ) {
            let path = [&module, &mention[1..mention.len() - 1]].concat();
            return named(tree, &path, last).into_iter().collect();
        }
        if let Some(thing) = self.names.get(first).or_else(|| self.parts.get(first)) {
            return vec![thing.clone()];
        }
        if PRELUDE.contains(&first.as_str()) {
            return vec![Thing::Library];
        }
        parts(first)
            .filter_map(|part| self.parts.get(part))
            .cloned()
            .collect()
    }
}

/// What a name of a module stands for.
fn named(tree: &Tree, path: &[String], name: &str) -> Option<Thing> {
    let owner = path.get(1).filter(|_| path[0] == "Rattle");
    let Some(owner) = owner.filter(|owner| tree.has(owner)) else {
        return Some(Thing::Library);
    };
    if path.get(3).is_some_and(|part| part == "declared") {
        let of = path.get(4).map_or(name, String::as_str);
        return Some(Thing::Type(owner.clone(), of.into()));
    }
    let module = path[2..].join(".");
    let Some(place) = tree.place(owner, &module) else {
        return Some(Thing::Made(format!("{owner}.{module}")));
    };
    let page = &tree.files[place].page;
    let declares =
        |at: &usize| page.items[*at].kind != Kind::Open && page.items[*at].declares(name);
    if let Some(at) = (0..page.items.len()).find(declares) {
        return Some(Thing::Item(place, at));
    }
    let passed_on = page.imports.iter().filter(|import| import.passed_on);
    let mut all = passed_on.flat_map(|import| import.names.iter().map(move |pair| (import, pair)));
    let (import, (from, _)) = all.find(|(_, (_, to))| to == name)?;
    named(tree, &import.path, from)
}
