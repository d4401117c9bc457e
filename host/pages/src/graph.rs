//! Who mentions whom.

use crate::mention::{mentions, names, Mention};
use crate::scope::{Scope, Thing};
use crate::source::Function;
use crate::tree::Tree;
use std::collections::{BTreeMap, BTreeSet};

/// What a declaration mentions.
#[derive(Default)]
pub struct Node {
    /// By its type.
    pub head: BTreeSet<Thing>,
    /// By its clauses.
    pub body: BTreeSet<Thing>,
    /// Names that nothing brings in, and names that it binds although a declaration has them: what it mentions isn't sure.
    pub doubts: Vec<String>,
}

/// Every declaration.
#[derive(Default)]
pub struct Graph {
    /// By the declaration.
    pub nodes: BTreeMap<Thing, Node>,
    /// What was not understood.
    pub errors: Vec<String>,
}

impl Graph {
    /// Reads every page.
    pub fn of(tree: &Tree) -> Graph {
        let mut graph = Graph::default();
        for (place, file) in tree.files.iter().enumerate() {
            let scope = Scope::of_page(tree, place);
            let unread = file
                .page
                .unread
                .iter()
                .map(|(line, what)| (line, what.to_string()));
            let missing = scope
                .missing
                .iter()
                .map(|(line, name)| (line, format!("there is no {name}")));
            let errors = unread
                .chain(missing)
                .map(|(line, what)| format!("{}:{line}: {what}", file.path));
            graph.errors.extend(errors);
            for at in 0..file.page.items.len() {
                graph
                    .nodes
                    .insert(Thing::Item(place, at), node(tree, &scope, place, at));
            }
        }
        graph
    }
}

fn node(tree: &Tree, scope: &Scope, place: usize, at: usize) -> Node {
    let page = &tree.files[place].page;
    let found = mentions(page, &page.items[at], &|word| scope.is_constructor(word));
    let things = |from: &BTreeSet<Mention>| {
        from.iter()
            .flat_map(|mention| scope.find(tree, mention))
            .collect()
    };
    let all = found.head.iter().chain(&found.body);
    let unknown = all.filter(|mention| scope.find(tree, mention).is_empty());
    let unknown =
        unknown.map(|mention| format!("mentions `{}`, which nothing brings in", mention.join(".")));
    let hidden = found.bound.iter().filter(|name| scope.is_item(name));
    let hidden = hidden.map(|name| format!("binds `{name}`, the name of a declaration"));
    Node {
        head: things(&found.head),
        body: things(&found.body),
        doubts: unknown.chain(hidden).collect(),
    }
}

/// What the contract of a function mentions.
pub fn promised(tree: &Tree, scope: &Scope, function: &Function) -> BTreeSet<Thing> {
    let found = names(&function.contract).into_iter();
    let free = found.filter(|mention| !function.parameters.contains(&mention[0]));
    free.flat_map(|mention| scope.find(tree, &mention))
        .collect()
}
