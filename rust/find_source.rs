//! Where the original source is: part of the build scripts that mount its files unchanged.

use std::path::PathBuf;
use std::{env, fs};

const VARIABLE: &str = "CLICKHOUSE_ANALYZER_SRC";

pub const TOKEN: &str = "lexer/token.rs";
pub const SYNTAX_KIND: &str = "parser/syntax_kind.rs";
pub const SYNTAX_TREE: &str = "parser/syntax_tree.rs";
pub const FORMATTER: &str = "formatter/mod.rs";
pub const CONTEXT: &str = "formatter/context.rs";
pub const FORMAT_NODE: &str = "formatter/format_node.rs";
const FILES: [&str; 6] = [TOKEN, SYNTAX_KIND, SYNTAX_TREE, FORMATTER, CONTEXT, FORMAT_NODE];

/// The folder of the source's files, if all are there; the crate is told whether they are.
pub fn find() -> Option<PathBuf> {
    println!("cargo::rustc-check-cfg=cfg(has_source)");
    // The source names a feature that no crate here has.
    println!("cargo::rustc-check-cfg=cfg(feature, values(\"serde\"))");
    println!("cargo::rerun-if-env-changed={VARIABLE}");
    let source = source_folder().join("src");
    for file in FILES {
        println!("cargo::rerun-if-changed={}", source.join(file).display());
    }
    if FILES.iter().all(|file| source.join(file).is_file()) {
        println!("cargo::rustc-cfg=has_source");
        return Some(source.canonicalize().expect("a folder seen before"));
    }
    println!("cargo::warning=no source in {}: set {VARIABLE} to the folder that holds src/", source.display());
    None
}

/// The folder that holds src/: the variable's, else shared/docs/src beside the repository.
fn source_folder() -> PathBuf {
    if let Some(folder) = env::var_os(VARIABLE) {
        return PathBuf::from(folder);
    }
    let package = PathBuf::from(env::var_os("CARGO_MANIFEST_DIR").expect("cargo names the package"));
    package.join("../../../shared/docs/src")
}

/// Writes a file that the crate includes.
pub fn write(name: &str, text: &str) {
    let folder = PathBuf::from(env::var_os("OUT_DIR").expect("cargo names the output folder"));
    fs::write(folder.join(name), text).expect("the output folder can be written");
}
