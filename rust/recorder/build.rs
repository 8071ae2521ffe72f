//! Mounts the original source's files unchanged, with this crate's own tree in place of the source's and its own context before it.

#[path = "../find_source.rs"]
#[allow(dead_code)]
mod find_source;

use find_source::{write, CONTEXT, FORMATTER, FORMAT_NODE, SYNTAX_KIND, TOKEN};
use std::path::Path;

fn main() {
    write("source.rs", &find_source::find().map_or(String::new(), |source| modules(&source)));
}

/// The routines name the tree as `crate::parser::syntax_tree` and the context as `super::context`: both names lead to this crate's. The
/// source's own context is beside them, to write. `formatter` is there for its settings.
fn modules(source: &Path) -> String {
    let path = |file: &str| format!("{:?}", source.join(file));
    format!(
        "pub mod lexer {{ #[path = {token}] pub mod token; }}
pub mod parser {{
    #[path = {kind}] pub mod syntax_kind;
    pub use crate::tree as syntax_tree;
}}
#[allow(dead_code)] #[path = {formatter}] mod formatter;
#[allow(dead_code, clippy::duplicate_mod)] mod recorded {{
    use crate::context;
    use crate::formatter::FormatConfig;
    #[path = {context}] pub mod own_context;
    #[path = {node}] pub mod format_node;
}}
",
        token = path(TOKEN),
        kind = path(SYNTAX_KIND),
        formatter = path(FORMATTER),
        context = path(CONTEXT),
        node = path(FORMAT_NODE),
    )
}
