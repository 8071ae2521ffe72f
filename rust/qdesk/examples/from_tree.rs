//! From the source's own syntax tree to a tape, and a layout that equals its `format`. Needs the source, as rust/README.md says.
//!
//! `Tree` is ClickHouse/clickhouse-analyzer's `SyntaxTree`, `TreeChild` its `SyntaxChild`, and `format_tree` its `format`: a program that
//! depends on that crate names them so.

use oracle::source::{format_tree, Tree, TreeChild};
use qdesk::{layout_to_string, Case, Error, Settings, TapeBuilder};
use std::io::{self, Write};

/// The layout of a query, from the source's tree of it.
pub fn laid_out(text: &str, tree: &Tree, settings: Settings) -> Result<String, Error> {
    let mut tape = TapeBuilder::new();
    put(tree, &mut tape)?;
    layout_to_string(text, &tape.finish()?, settings)
}

/// Spells a tree: it opens, its children follow in their order, it closes.
fn put(tree: &Tree, tape: &mut TapeBuilder) -> Result<(), Error> {
    tape.open(tree.kind as u16, tree.start..tree.end)?;
    for child in &tree.children {
        match child {
            TreeChild::Tree(tree) => put(tree, tape)?,
            TreeChild::Token(token) => {
                tape.token(token.kind as u16, token.start..token.end)?;
            }
        }
    }
    tape.close()?;
    Ok(())
}

#[allow(dead_code)]
#[path = "layout.rs"]
mod query;

/// Stands for the source's parser, which is not among the files at hand: the tree of the query in layout.rs.
fn parsed(text: &str) -> Result<Tree, Error> {
    let root = oracle::tape::read(&query::tape()?, text).expect("a sound tape");
    Ok(oracle::source::tree(&root))
}

fn main() -> Result<(), Box<dyn std::error::Error>> {
    if !oracle::source::AT_HAND {
        return Err(oracle::source::HINT.into());
    }
    let tree = parsed(query::TEXT)?;
    let laid_out = laid_out(query::TEXT, &tree, Settings { indent_width: 4, case: Case::UPPER })?;
    let by_the_source = format_tree(&tree, 4, true, query::TEXT);
    let mut out = io::stdout().lock();
    writeln!(out, "{laid_out}\nequal to the source's: {}", laid_out == by_the_source)?;
    Ok(out.flush()?)
}
