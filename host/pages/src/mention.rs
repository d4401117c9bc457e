//! Which names a declaration mentions: not those that it binds, nor fields behind a dot, nor labels.

use crate::item::Item;
use crate::page::Page;
use crate::token::{depths, Token};
use std::collections::BTreeSet;

/// A name, with what stands right behind it after dots: `box.Lent` is `["box", "Lent"]`.
pub type Mention = Vec<String>;

/// Words that are no names.
const RESERVED: [&str; 27] = [
    "(",
    ")",
    "{",
    "}",
    ".",
    ";",
    ",",
    "@",
    "\"",
    ":",
    "=",
    "→",
    "λ",
    "let",
    "in",
    "where",
    "do",
    "record",
    "data",
    "pub",
    "unfold",
    "unfolding",
    "open",
    "use",
    "as",
    "_",
    "×",
];

/// What a declaration mentions.
#[derive(Debug, Default)]
pub struct Mentions {
    /// In its type, and in the parameters of the blocks around it.
    pub head: BTreeSet<Mention>,
    /// In its clauses.
    pub body: BTreeSet<Mention>,
    /// What it binds, and mentions too if it means another thing of that name.
    pub bound: BTreeSet<String>,
}

/// Reads a declaration; `is_constructor` says which words of a pattern bind nothing.
pub fn mentions(page: &Page, item: &Item, is_constructor: &dyn Fn(&str) -> bool) -> Mentions {
    let sections = item.sections.iter().map(|&at| &page.sections[at]);
    let heads: Vec<&Vec<Token>> = sections.chain([&item.head]).collect();
    let mut binds: BTreeSet<String> = item.fields.iter().cloned().collect();
    for tokens in heads.iter().copied().chain(&item.clauses) {
        binders(tokens, &mut binds);
    }
    for clause in &item.clauses {
        patterns(clause, is_constructor, &mut binds);
    }
    binds.retain(|name| !item.others.contains(name));
    let collect = |tokens: &[&Vec<Token>]| -> BTreeSet<Mention> {
        let all = tokens.iter().flat_map(|tokens| names(tokens));
        all.filter(|mention| mention[0] != item.name).collect()
    };
    let all = (
        collect(&heads),
        collect(&item.clauses.iter().collect::<Vec<_>>()),
    );
    let free = |found: &BTreeSet<Mention>| {
        found
            .iter()
            .filter(|mention| !binds.contains(&mention[0]))
            .cloned()
            .collect()
    };
    let spelled = all.0.iter().chain(&all.1).map(|mention| mention[0].clone());
    Mentions {
        head: free(&all.0),
        body: free(&all.1),
        bound: spelled.filter(|name| binds.contains(name)).collect(),
    }
}

fn is_name(word: &str) -> bool {
    let digit = word.starts_with(|c: char| c.is_ascii_digit());
    !digit && !RESERVED.contains(&word)
}

/// What `(x y : A)`, `{x : A}`, `λ x y.`, `let x =` and `x :` bind.
fn binders(tokens: &[Token], binds: &mut BTreeSet<String>) {
    for at in 0..tokens.len() {
        match tokens[at].text.as_str() {
            "(" | "{" | ";" | "," => group(&tokens[at + 1..], &[":"], binds),
            "λ" => lambda(&tokens[at + 1..], binds),
            "let" => group(&tokens[at + 1..], &[":", "="], binds),
            ":" if at > 0 => group(&tokens[at - 1..], &[":"], binds),
            _ => {}
        }
    }
}

/// Names up to one of these words, with nothing else between.
fn group(tokens: &[Token], ends: &[&str], binds: &mut BTreeSet<String>) {
    let Some(stop) = tokens.iter().position(|token| !is_name(&token.text)) else {
        return;
    };
    if ends.contains(&tokens[stop].text.as_str()) {
        binds.extend(tokens[..stop].iter().map(|token| token.text.clone()));
    }
}

/// The names before the dot of a `λ`; those in brackets are a [`group`].
fn lambda(tokens: &[Token], binds: &mut BTreeSet<String>) {
    let depths = depths(tokens);
    let ends = (0..tokens.len()).find(|&at| tokens[at].text == "." && depths[at] == 0);
    for at in 0..ends.unwrap_or(0) {
        if depths[at] == 0 && is_name(&tokens[at].text) {
            binds.insert(tokens[at].text.clone());
        }
    }
}

/// What the left sides of a clause, and of the clauses of its `where` block, bind.
fn patterns(clause: &[Token], is_constructor: &dyn Fn(&str) -> bool, binds: &mut BTreeSet<String>) {
    for begins in [vec![0], helpers(clause)].concat() {
        let left = clause[begins..].iter().position(|token| token.text == "=");
        for at in begins + 1..begins + left.unwrap_or(1) {
            let word = &clause[at].text;
            let behind = clause[at].tight && clause[at - 1].text == ".";
            let before = clause[at + 1].tight && clause[at + 1].text == ".";
            if is_name(word) && !behind && !before && !is_constructor(word) {
                binds.insert(word.clone());
            }
        }
    }
}

/// Where the clauses of a `where` block begin: at the names that have a signature there.
fn helpers(clause: &[Token]) -> Vec<usize> {
    let begins = clause.iter().position(|token| token.text == "where");
    let inside = begins.map_or(clause.len(), |at| at + 1)..clause.len();
    let firsts = inside.filter(|&at| clause[at].line != clause[at - 1].line);
    let next = |at: usize| clause.get(at + 1).map_or("", |token| token.text.as_str());
    let (signed, others): (Vec<usize>, Vec<usize>) = firsts.partition(|&at| next(at) == ":");
    let is_helper = |at: &usize| signed.iter().any(|&of| clause[of].text == clause[*at].text);
    others.into_iter().filter(is_helper).collect()
}

/// Every name that is no label and no field.
pub fn names(tokens: &[Token]) -> Vec<Mention> {
    let mut found = Vec::new();
    let mut at = 0;
    while at < tokens.len() {
        let next = tokens.get(at + 1);
        if tokens[at].text == "." {
            // a field, unless the dot ends the binders of a λ
            at += if next.is_some_and(|token| token.tight) {
                2
            } else {
                1
            };
        } else if is_name(&tokens[at].text) && !is_label(tokens, at) {
            let path = path(&tokens[at..]);
            at += 2 * path.len() - 1;
            found.push(path);
        } else {
            at += 1;
        }
    }
    found
}

/// A name and the names behind its dots, with no space between.
fn path(tokens: &[Token]) -> Mention {
    let mut found = vec![tokens[0].text.clone()];
    let mut at = 1;
    while at + 1 < tokens.len()
        && tokens[at].text == "."
        && tokens[at].tight
        && tokens[at + 1].tight
    {
        found.push(tokens[at + 1].text.clone());
        at += 2;
    }
    found
}

/// `name :`, and `name =` behind a brace or a semicolon.
fn is_label(tokens: &[Token], at: usize) -> bool {
    let before = at.checked_sub(1).map_or("", |at| tokens[at].text.as_str());
    match tokens.get(at + 1).map_or("", |token| token.text.as_str()) {
        ":" => true,
        "=" => matches!(before, "{" | ";"),
        _ => false,
    }
}

#[cfg(test)]
mod tests {
    use super::*;

    fn read(text: &str) -> Mentions {
        let page = Page::parse(text);
        mentions(&page, &page.items[0], &|word| {
            matches!(word, "None" | "Some" | "∷")
        })
    }

    fn shown(found: &BTreeSet<Mention>) -> Vec<String> {
        found.iter().map(|mention| mention.join(".")).collect()
    }

    #[test]
    fn types_and_clauses_apart() {
        let found = read("f : (x : A) → B x\nf x = g x.field (k x).field (h.i x)\n");
        assert_eq!(shown(&found.head), ["A", "B"]);
        assert_eq!(shown(&found.body), ["g", "h.i", "k"]);
    }

    #[test]
    fn what_is_bound_is_not_mentioned() {
        let text =
            "f : A\nf (Some y) = λ (z : B) w. let v = y in record { label = z w v; other = u }\n";
        assert_eq!(shown(&read(text).body), ["B", "Some", "u"]);
    }

    #[test]
    fn constructors_are_mentioned_in_patterns() {
        let found = read("f : Reply → A\nf (x ∷ xs) = x\nf Reply.Grant = y\n");
        assert_eq!(shown(&found.head), ["A", "Reply"]);
        assert_eq!(shown(&found.body), ["Reply.Grant", "y", "∷"]);
    }

    #[test]
    fn helpers_bind_their_own_names() {
        let text = "f : A\nf x = go x\n  where\n    go : B → C\n    go y = g y\n";
        assert_eq!(shown(&read(text).body), ["B", "C", "g"]);
    }

    #[test]
    fn parameters_of_blocks_belong_to_the_type() {
        let found = read("module _ (x : A) where\n  f : B\n  f = x\n");
        assert_eq!(shown(&found.head), ["A", "B"]);
        assert!(found.body.is_empty());
        assert_eq!(found.bound.into_iter().collect::<Vec<_>>(), ["x"]);
    }
}
