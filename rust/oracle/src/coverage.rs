//! What the walk of the source meets in a tree: how often each routine meets each sort of child.

use crate::kinds::{self, TOKENS};
use crate::masking::is_copied;
use crate::tape::{Child, Node};
use std::collections::{BTreeMap, BTreeSet};

#[derive(Default)]
pub struct Coverage {
    /// By node kind: nodes that the walk laid out by their routine, not copied as typed.
    pub laid_out: BTreeMap<u16, u64>,
    /// Nodes that the walk copied as typed.
    pub copied: u64,
    /// By routine and sort of child.
    pub children: BTreeMap<(&'static str, String), u64>,
    /// The bare words that `format_inline` handed to `emit_token`, in capitals.
    pub words: BTreeSet<Vec<u8>>,
}

/// The node kinds that some routine asks for among its children; `other node` is the rest.
pub const NODE_KINDS: [&str; 7] =
    ["ColumnList", "GroupByList", "OrderByList", "SettingList", "WhenClause", "SelectStatement", "UnionClause"];

/// The words that the routines for CASE and WHEN ask for.
pub const WORDS: [&str; 5] = ["CASE", "ELSE", "END", "WHEN", "THEN"];

impl Coverage {
    /// Walks a tree as `format_node` does.
    pub fn add(&mut self, node: &Node, text: &[u8]) {
        if is_copied(node) {
            self.copied += 1;
            return;
        }
        *self.laid_out.entry(node.kind).or_default() += 1;
        let routine = kinds::routine(node.kind);
        for child in &node.children {
            *self.children.entry((routine, sort(child, text))).or_default() += 1;
            match (child, bare_word(child, text)) {
                (Child::Node(node), _) => self.add(node, text),
                (_, Some(word)) if routine == "format_inline" => drop(self.words.insert(word)),
                _ => {}
            }
        }
    }
}

/// The sort of a child: the word, token kind or node kind that some routine asks for, or another.
pub fn sort(child: &Child, text: &[u8]) -> String {
    let word = bare_word(child, text);
    match (child, WORDS.iter().find(|known| word.as_deref() == Some(known.as_bytes()))) {
        (_, Some(word)) => format!("BareWord {word}"),
        (Child::Node(node), _) => known(node.kind, &NODE_KINDS, "other node"),
        (Child::Token(token), _) => known(token.kind, &TOKENS, "other token"),
    }
}

/// The text of a BareWord, in capitals.
fn bare_word(child: &Child, text: &[u8]) -> Option<Vec<u8>> {
    match child {
        Child::Token(token) if token.kind == kinds::number("BareWord") => {
            Some(text[token.start as usize..token.end as usize].to_ascii_uppercase())
        }
        _ => None,
    }
}

fn known(kind: u16, names: &[&str], other: &str) -> String {
    let name = kinds::name(kind);
    names.iter().find(|known| **known == name).unwrap_or(&other).to_string()
}
