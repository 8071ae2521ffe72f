//! All edits by name: copies of functions, tests of a kind, rows of the dispatch, words, and kinds that are carried.

use crate::formatter::format_node::ROUTINES;
use crate::on::{Edit, Met};
use oracle::cases::characters;
use oracle::coverage::NODE_KINDS;
use oracle::stored::by_hand;
use oracle::{kinds, source};

include!("table.rs");

/// What a test of a kind is asked about.
#[derive(Clone, Copy, PartialEq)]
pub enum Sort {
    Token,
    Node,
    Root,
}

/// An edit, and what a call must meet for it to be able to show: one of these.
pub struct Mutant {
    pub edit: Edit,
    pub met: Vec<Met>,
    pub family: &'static str,
    pub name: String,
}

fn mutant(edit: Edit, met: Vec<Met>, family: &'static str, name: String) -> Mutant {
    Mutant { edit, met, family, name }
}

/// The family of edits of the check.
pub const CHECK: &str = "check of a call";

pub fn mutants() -> Vec<Mutant> {
    let copies = COPIES.iter().map(|(number, function, checks, name)| {
        let family = if *checks { CHECK } else { "text" };
        mutant(Edit::Copy(*number), vec![Met::Function(*function)], family, name.to_string())
    });
    let kinds = (0..kinds::COUNT).map(|kind| {
        let name = format!("kinds.rs is_carried: otherwise for {}", kinds::name(kind));
        mutant(Edit::Carried(kind), vec![Met::Carried(kind)], CHECK, name)
    });
    copies.chain(kinds).chain(flips()).chain(moves()).chain(word_edits()).chain(white_edits()).collect()
}

fn carried_kinds() -> impl Iterator<Item = u16> {
    (0..kinds::COUNT).filter(|kind| kinds::is_carried(*kind))
}

fn numbers(names: &[&str]) -> Vec<u16> {
    names.iter().map(|name| kinds::number(name)).collect()
}

fn flips() -> Vec<Mutant> {
    let nodes =
        [&NODE_KINDS[..], &["ColumnReference", "File", "QueryList", "Identifier", "Expression", "Error"]].concat();
    let tokens = [&kinds::TOKENS[..], &["Error", "Identifier"]].concat();
    let mut all = Vec::new();
    for (site, (test, sort, taken)) in SITES.iter().enumerate() {
        let kinds_of = match sort {
            Sort::Token => numbers(&tokens),
            Sort::Node => numbers(&nodes),
            Sort::Root => carried_kinds().collect(),
        };
        all.extend(kinds_of.into_iter().filter(|kind| !taken.contains(&kinds::name(*kind))).map(|kind| {
            let name = format!("{test}, otherwise for {}", kinds::name(kind));
            mutant(Edit::Flip(site, kind), vec![Met::Site(site, kind)], "kind test", name)
        }));
    }
    all
}

fn moves() -> Vec<Mutant> {
    let mut all = Vec::new();
    for kind in carried_kinds() {
        let own = if kinds::name(kind) == "Error" { "format_error_verbatim" } else { kinds::routine(kind) };
        for (routine, (name, _)) in ROUTINES.iter().enumerate().filter(|(_, (name, _))| *name != own) {
            let name = format!("format_node.rs format_node: {} to {name} instead of {own}", kinds::name(kind));
            all.push(mutant(Edit::Move(kind, routine), vec![Met::Kind(kind)], "dispatch", name));
        }
    }
    all
}

/// Each character of a list taken for white space, or no longer.
fn white_edits() -> Vec<Mutant> {
    let edit = |character: char| {
        let name = format!("context.rs finish: white space otherwise for U+{:04X}", u32::from(character));
        mutant(Edit::White(character), vec![Met::White(character)], "white space", name)
    };
    characters().into_iter().map(edit).collect()
}

/// Each keyword gone, cut by its last letter, with a letter more beside it, or taken for a value.
fn word_edits() -> Vec<Mutant> {
    let listed = source::keywords();
    let word = |word: &str| Met::Word(word.to_string());
    let unlisted = |word: String| (!listed.contains(&word.as_str())).then(|| &*Box::leak(word.into_boxed_str()));
    let mut all = Vec::new();
    for old in listed {
        let mut add = |edit, met, what: &str| {
            all.push(mutant(edit, met, "keyword", format!("format_node.rs KEYWORDS: {old} {what}")));
        };
        add(Edit::Words(Some(old), None), vec![word(old)], "gone");
        add(Edit::Value(old), vec![word(old)], "among the values or no longer");
        for new in by_hand::near(old).into_iter().filter_map(unlisted) {
            add(Edit::Words(None, Some(new)), vec![word(new)], &format!("and {new} too"));
            add(Edit::Words(Some(old), Some(new)), vec![word(old), word(new)], &format!("changed to {new}"));
        }
    }
    all
}
