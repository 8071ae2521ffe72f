//! Finds the original source, mounts its files unchanged as modules, and reads its tables of kinds and routines.

#[path = "../find_source.rs"]
mod find_source;

use find_source::{write, CONTEXT, FORMATTER, FORMAT_NODE, SYNTAX_KIND, SYNTAX_TREE, TOKEN};
use std::fs;
use std::path::Path;

fn main() {
    if let Some(source) = find_source::find() {
        write("source.rs", &modules(&source));
        write("tables.rs", &tables(&source));
    } else {
        write("source.rs", "");
        write("tables.rs", &table_text(&[], &[]));
    }
}

/// The original crate's module tree. `format_node` is mounted a second time to reach its private word tests.
fn modules(source: &Path) -> String {
    let path = |file: &str| format!("{:?}", source.join(file));
    format!(
        "pub mod lexer {{ #[path = {token}] pub mod token; }}
pub mod parser {{
    #[path = {kind}] pub mod syntax_kind;
    #[path = {tree}] pub mod syntax_tree;
}}
#[allow(dead_code)] #[path = {formatter}] pub mod formatter;
#[allow(dead_code, clippy::duplicate_mod)] mod formatter_opened {{
    use crate::formatter::FormatConfig;
    #[path = {context}] mod context;
    pub mod format_node {{
        include!({node});
        pub fn opened_is_keyword(text: &str) -> bool {{ is_keyword(text) }}
        pub fn opened_is_value_keyword(text: &str) -> bool {{ is_value_keyword(text) }}
        pub fn opened_keywords() -> &'static [&'static str] {{ KEYWORDS }}
    }}
}}
",
        token = path(TOKEN),
        kind = path(SYNTAX_KIND),
        tree = path(SYNTAX_TREE),
        formatter = path(FORMATTER),
        context = path(CONTEXT),
        node = path(FORMAT_NODE),
    )
}

fn tables(source: &Path) -> String {
    let read = |file: &str| fs::read_to_string(source.join(file)).expect("a file seen before");
    table_text(&variants(&read(SYNTAX_KIND)), &dispatch_rows(&read(FORMAT_NODE)))
}

/// The part of `text` between two marks, without line comments.
fn part(text: &str, from: &str, to: &str) -> String {
    let (_, rest) = text.split_once(from).expect("the part's first mark");
    let (inner, _) = rest.split_once(to).expect("the part's last mark");
    inner.lines().map(|line| line.split("//").next().unwrap_or("")).collect::<Vec<_>>().join("\n")
}

/// The variants of `SyntaxKind` in their order.
fn variants(text: &str) -> Vec<String> {
    let inner = part(text, "pub enum SyntaxKind {", "\n}");
    inner.split(',').map(|name| name.trim().to_string()).filter(|name| !name.is_empty()).collect()
}

/// The named rows of `format_node`: a kind and the routine it goes to.
fn dispatch_rows(text: &str) -> Vec<(String, String)> {
    let inner = part(text, "match tree.kind {", "_ => format_passthrough");
    let mut rows = Vec::new();
    let mut kinds = Vec::new();
    for word in inner.split(|c: char| !c.is_alphanumeric() && c != '_' && c != ':') {
        if let Some(kind) = word.strip_prefix("SyntaxKind::") {
            kinds.push(kind.to_string());
        } else if word.starts_with("format_") {
            rows.extend(kinds.drain(..).map(|kind| (kind, word.to_string())));
        }
    }
    rows
}

fn table_text(names: &[String], rows: &[(String, String)]) -> String {
    let values = |path: &str| names.iter().map(|name| format!("{path}::{name}")).collect::<Vec<_>>().join(", ");
    format!(
        "/// The kinds' names in the source's order.\npub static NAMES: &[&str] = &{names:?};\n\
         /// The named rows of the source's dispatch: a kind's name and its routine's.\n\
         pub static ROWS: &[(&str, &str)] = &{rows:?};\n\
         /// The kinds as the source's own values, in its order.\n\
         #[cfg(has_source)]\npub static VALUES: &[crate::parser::syntax_kind::SyntaxKind] = &[{}];\n\
         /// The same as the recorder's values.\n\
         #[cfg(has_source)]\npub static RECORDED_VALUES: &[recorder::parser::syntax_kind::SyntaxKind] = &[{}];\n",
        values("crate::parser::syntax_kind::SyntaxKind"),
        values("recorder::parser::syntax_kind::SyntaxKind"),
    )
}
