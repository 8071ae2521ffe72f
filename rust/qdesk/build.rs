//! Finds libqdesk.a and links it. Where there is none it says how it is made and makes nothing: the proof takes minutes, and cargo
//! shows a build script's words only when the script has ended.

use std::collections::HashMap;
use std::path::{Path, PathBuf};
use std::time::SystemTime;
use std::{env, fs};

const VARIABLE: &str = "QDESK_LIB_DIR";
pub const LIBRARY: &str = "libqdesk.a";
/// The crate of the repository that the library is made from.
const CRATE: &str = "qdesk_c";
/// What makes the library.
const COMMAND: &str = "sh scripts/static_libraries.sh";

fn main() {
    println!("cargo::rerun-if-env-changed={VARIABLE}");
    match target_is_linked().and_then(|()| folder()) {
        Ok(folder) => link(&folder),
        Err(message) => println!("cargo::error={message}"),
    }
}

fn link(folder: &Path) {
    println!("cargo::rerun-if-changed={}", folder.join(LIBRARY).display());
    println!("cargo::rustc-link-search=native={}", folder.display());
    println!("cargo::rustc-link-lib=static=qdesk");
}

/// The library's machine code is for one machine: elsewhere a linker's message would say less.
fn target_is_linked() -> Result<(), String> {
    let target = ["CARGO_CFG_TARGET_OS", "CARGO_CFG_TARGET_ARCH"].map(|name| env::var(name).unwrap_or_default());
    if target == ["linux", "x86_64"] {
        return Ok(());
    }
    Err(format!("{LIBRARY} is for Linux on x86-64, not for {}", target.join(" on ")))
}

/// The folder that holds the library: the variable's, else the repository's.
fn folder() -> Result<PathBuf, String> {
    if let Some(named) = env::var_os(VARIABLE) {
        return named_folder(PathBuf::from(named));
    }
    let package = PathBuf::from(env::var_os("CARGO_MANIFEST_DIR").expect("cargo names the package"));
    let repository = package.join("../..");
    let folder = repository_folder(&repository)?;
    for source in sources(&repository) {
        println!("cargo::rerun-if-changed={}", source.display());
    }
    if let Some(source) = newer_source(&repository) {
        println!("cargo::warning={LIBRARY} is older than {}: run `{COMMAND}`", source.display());
    }
    Ok(folder)
}

/// A folder that the caller names is used or refused.
pub fn named_folder(folder: PathBuf) -> Result<PathBuf, String> {
    if folder.is_relative() {
        return Err(format!("{VARIABLE} is {}, which is not a full path", folder.display()));
    }
    if !folder.join(LIBRARY).is_file() {
        return Err(format!("{VARIABLE} is {}, which has no {LIBRARY}", folder.display()));
    }
    Ok(folder)
}

/// target/staticlib of the repository, if it has the library.
pub fn repository_folder(repository: &Path) -> Result<PathBuf, String> {
    let folder = repository.join("target/staticlib");
    if folder.join(LIBRARY).is_file() {
        return Ok(folder);
    }
    Err(format!(
        "no target/staticlib/{LIBRARY} in the repository: run `{COMMAND}` there, which proves it first, in 3 to 7 \
         minutes on two cores, or set {VARIABLE} to a folder that holds {LIBRARY}"
    ))
}

/// A file that the library is made from and that changed after it was made.
pub fn newer_source(repository: &Path) -> Option<PathBuf> {
    let made = modified(&repository.join("target/staticlib").join(LIBRARY))?;
    let mut files = sources(repository).into_iter().flat_map(|folder| fs::read_dir(folder).into_iter().flatten());
    let newer = files.find(|file| file.as_ref().is_ok_and(|file| modified(&file.path()) > Some(made)))?.ok()?;
    Some(newer.path().strip_prefix(repository).ok()?.to_path_buf())
}

fn modified(file: &Path) -> Option<SystemTime> {
    fs::metadata(file).and_then(|facts| facts.modified()).ok()
}

/// The folders of the code that the library is made from. In crates.txt lines come in any order; `staticlib` may follow the name. A library of the
/// kit, which has no line of its own, has no folder here either.
fn sources(repository: &Path) -> Vec<PathBuf> {
    let list = fs::read_to_string(repository.join("crates.txt")).unwrap_or_default();
    let lines: HashMap<_, _> = list
        .lines()
        .filter_map(|line| line.split_once(':'))
        .map(|(head, others)| (head.split(' ').next().unwrap_or(head), others.split_whitespace()))
        .collect();
    let mut needed = vec![CRATE];
    let mut seen = 0;
    while let Some(&name) = needed.get(seen) {
        for other in lines.get(name).into_iter().flat_map(|others| others.clone()) {
            if lines.contains_key(other) && !needed.contains(&other) {
                needed.push(other);
            }
        }
        seen += 1;
    }
    needed.iter().map(|name| repository.join("crates").join(name).join("src")).collect()
}
