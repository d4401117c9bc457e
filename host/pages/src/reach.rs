//! What must be believed: all that public promises and statements reach.

use crate::graph::{promised, Graph};
use crate::item::{Item, Kind};
use crate::reading::{Named, Reading, READING};
use crate::scope::{Scope, Thing};
use crate::tree::Tree;
use std::collections::{BTreeMap, BTreeSet};

/// The crate whose functions a program links.
pub const ARCHIVE: &str = "crustnewt";

/// Why something is reached.
#[derive(Clone, Copy, Debug, PartialEq, Eq, PartialOrd, Ord)]
pub enum Why {
    /// By a promise of the archive.
    Archive,
    /// By a promise of a crate below it.
    Below,
    /// By a statement.
    Statement,
}

/// What is reached.
#[derive(Default)]
pub struct Reach {
    /// Each, with what reached it first, for each reason.
    pub found: BTreeMap<Thing, BTreeMap<Why, String>>,
    /// Statements.
    pub statements: BTreeSet<Thing>,
    /// Those of them that are theorems: their types alone are read.
    pub theorems: BTreeSet<Thing>,
    /// Definitions that are shaped like the code, and what is believed in their place.
    pub ties: BTreeMap<Thing, BTreeSet<Thing>>,
    /// The crates that promises and statements rest on.
    pub product: BTreeSet<String>,
    /// What the list names and isn't there.
    pub errors: Vec<String>,
}

impl Reach {
    /// Follows all that the promises and the list's statements mention.
    pub fn of(tree: &Tree, graph: &Graph, reading: &Reading) -> Reach {
        let mut reach = Reach::default();
        reach.tie(tree, graph, reading);
        let mut roots = reach.stated(tree, graph, reading);
        roots.extend(reach.promises(tree));
        for (why, thing, from) in roots {
            reach.follow(tree, graph, why, (thing, from));
        }
        reach
    }

    fn tie(&mut self, tree: &Tree, graph: &Graph, reading: &Reading) {
        for tie in &reading.ties {
            let shaped = self.items(tree, tie.line, &tie.shaped);
            let pages = self.items(tree, tie.line, &tie.page);
            for theorem in self.items(tree, tie.line, &tie.theorem) {
                let said = said(tree, graph, &theorem);
                for missing in shaped
                    .iter()
                    .chain(&pages)
                    .filter(|thing| !said.contains(thing))
                {
                    let (theorem, missing) = (shown(tree, &theorem), shown(tree, missing));
                    self.errors.push(format!(
                        "{READING}:{}: {theorem} doesn't say {missing}",
                        tie.line
                    ));
                }
                for thing in &shaped {
                    let others = said.iter().filter(|other| !shaped.contains(other));
                    self.ties
                        .entry(thing.clone())
                        .or_default()
                        .extend(others.cloned());
                }
            }
        }
    }

    /// The declarations that the list names.
    fn items(&mut self, tree: &Tree, line: usize, named: &Named) -> Vec<Thing> {
        let Some(place) = tree.page_at(&named.path) else {
            self.errors
                .push(format!("{READING}:{line}: there is no page {}", named.path));
            return Vec::new();
        };
        let items = &tree.files[place].page.items;
        let mut found = Vec::new();
        for name in &named.names {
            match items.iter().position(|item| item.name == *name) {
                Some(at) => found.push(Thing::Item(place, at)),
                None => self
                    .errors
                    .push(format!("{READING}:{line}: {} has no `{name}`", named.path)),
            }
        }
        found
    }

    fn stated(
        &mut self,
        tree: &Tree,
        graph: &Graph,
        reading: &Reading,
    ) -> Vec<(Why, Thing, String)> {
        let mut roots = Vec::new();
        for (line, named) in &reading.statements {
            for thing in self.items(tree, *line, named) {
                let from = shown(tree, &thing);
                self.statements.insert(thing.clone());
                if item(tree, &thing).is_some_and(Item::is_type) {
                    roots.push((Why::Statement, thing, "the list".into()));
                } else {
                    let said = graph.nodes[&thing].head.iter();
                    roots.extend(said.map(|next| (Why::Statement, next.clone(), from.clone())));
                    self.theorems.insert(thing);
                }
            }
        }
        roots
    }

    fn promises(&mut self, tree: &Tree) -> Vec<(Why, Thing, String)> {
        let mut tops = BTreeSet::from([ARCHIVE.to_string()]);
        tops.extend(
            self.statements
                .iter()
                .filter_map(|thing| owner(tree, thing)),
        );
        self.product = tree.below(&tops);
        let mut roots = Vec::new();
        for code in tree
            .code
            .iter()
            .filter(|code| self.product.contains(&code.owner))
        {
            let why = if code.owner == ARCHIVE {
                Why::Archive
            } else {
                Why::Below
            };
            let scope = Scope::of_imports(tree, &code.source.imports);
            let missing = scope.missing.iter();
            self.errors.extend(
                missing.map(|(line, name)| format!("{}:{line}: there is no {name}", code.path)),
            );
            for function in code
                .source
                .functions
                .iter()
                .filter(|function| function.public)
            {
                let from = format!("{}::{}", code.owner, function.name);
                let things = promised(tree, &scope, function).into_iter();
                roots.extend(things.map(|thing| (why, thing, from.clone())));
            }
        }
        roots
    }

    fn follow(&mut self, tree: &Tree, graph: &Graph, why: Why, root: (Thing, String)) {
        let mut waiting = vec![root];
        while let Some((thing, from)) = waiting.pop() {
            let reached = self.found.entry(thing.clone()).or_default();
            if reached.contains_key(&why) {
                continue;
            }
            reached.insert(why, from);
            let name = shown(tree, &thing);
            let next = match (&thing, self.ties.get(&thing)) {
                (_, Some(pages)) => pages.iter().cloned().collect(),
                (Thing::Item(_, _), None) => {
                    let node = &graph.nodes[&thing];
                    node.head.union(&node.body).cloned().collect()
                }
                (Thing::Type(owner, of), None) => self.fields(tree, owner, of),
                _ => Vec::new(),
            };
            waiting.extend(next.into_iter().map(|thing| (thing, name.clone())));
        }
    }

    /// The types that a type of the code has in it.
    fn fields(&mut self, tree: &Tree, owner: &str, name: &str) -> Vec<Thing> {
        for code in tree.code.iter().filter(|code| code.owner == owner) {
            let types = &code.source.types;
            let Some(found) = types.iter().find(|of| of.name == name) else {
                continue;
            };
            let own = types.iter().map(|of| (owner, &of.name));
            let others = code
                .source
                .uses
                .iter()
                .map(|(owner, of)| (owner.as_str(), of));
            let all = own
                .chain(others)
                .filter(|(_, of)| found.words.contains(*of));
            return all
                .map(|(owner, of)| Thing::Type(owner.into(), of.clone()))
                .collect();
        }
        self.errors
            .push(format!("crates/{owner}/src has no type `{name}`"));
        Vec::new()
    }
}

/// What a theorem says, or a statement that one proves.
fn said(tree: &Tree, graph: &Graph, thing: &Thing) -> BTreeSet<Thing> {
    let node = &graph.nodes[thing];
    if item(tree, thing).is_some_and(Item::is_type) {
        return node.head.union(&node.body).cloned().collect();
    }
    node.head.clone()
}

/// A declaration; nothing of what is none, or of an `open` line.
pub fn item<'a>(tree: &'a Tree, thing: &Thing) -> Option<&'a Item> {
    let Thing::Item(place, at) = thing else {
        return None;
    };
    Some(&tree.files[*place].page.items[*at]).filter(|item| item.kind != Kind::Open)
}

fn owner(tree: &Tree, thing: &Thing) -> Option<String> {
    match thing {
        Thing::Item(place, _) => Some(tree.files[*place].owner.clone()),
        _ => None,
    }
}

/// A thing's name.
pub fn shown(tree: &Tree, thing: &Thing) -> String {
    match thing {
        Thing::Item(place, at) => {
            let file = &tree.files[*place];
            format!("{}::{}", file.owner, file.page.items[*at].name)
        }
        Thing::Type(owner, name) => format!("{owner}::{name}"),
        Thing::Library => "the kit's library".into(),
        Thing::Made(path) => path.clone(),
    }
}
