//! `pages reach`: which declarations of each page are reached, and by what.

use crate::item::{Item, Kind};
use crate::reach::{Reach, Why};
use crate::scope::Thing;
use crate::tree::Tree;
use std::collections::BTreeMap;

/// Every page of which something is reached: its declarations, those that are reached with a `+`.
pub fn reach(tree: &Tree, reach: &Reach) -> String {
    let mut lines = Vec::new();
    for (place, file) in tree.files.iter().enumerate() {
        let of = |at: usize| Thing::Item(place, at);
        let items = file
            .page
            .items
            .iter()
            .enumerate()
            .filter(|(_, item)| item.kind != Kind::Open);
        let items: Vec<(usize, &Item)> = items.collect();
        let count = |reached: bool| -> usize {
            let chosen = items
                .iter()
                .filter(|(at, _)| reach.found.contains_key(&of(*at)) == reached);
            chosen.map(|(_, item)| item.lines).sum()
        };
        let stated = items
            .iter()
            .any(|(at, _)| reach.statements.contains(&of(*at)));
        if count(true) == 0 && !stated {
            continue;
        }
        let look = if count(false) == 0 { "whole" } else { "mixed" };
        lines.push(format!(
            "{look} {}: {} lines reached, {} not",
            file.path,
            count(true),
            count(false)
        ));
        lines.extend(items.iter().map(|(at, item)| line(reach, &of(*at), item)));
    }
    lines.join("\n")
}

fn line(reach: &Reach, thing: &Thing, item: &Item) -> String {
    let comments = format!("{} lines, {} of comment", item.lines, item.comments);
    match reach.found.get(thing) {
        Some(why) => {
            let from = why.values().next().map_or("", String::as_str);
            let tied = if reach.ties.contains_key(thing) {
                "; tied to a page"
            } else {
                ""
            };
            format!(
                "  + {} {} ({comments}) by {from}{tied}",
                reasons(why),
                item.name
            )
        }
        None if reach.theorems.contains(thing) => {
            format!(
                "  = --S {} ({} lines of type): a stated theorem",
                item.name,
                item.head_lines()
            )
        }
        None if item.public => format!("  -     {} ({comments})", item.name),
        None => format!("  -     {} ({comments}), private", item.name),
    }
}

/// A letter each: a promise of the archive, a promise below it, a statement.
fn reasons(why: &BTreeMap<Why, String>) -> String {
    let letters = [
        (Why::Archive, 'A'),
        (Why::Below, 'B'),
        (Why::Statement, 'S'),
    ];
    let letter = |(of, letter)| if why.contains_key(&of) { letter } else { '-' };
    letters.map(letter).iter().collect()
}
