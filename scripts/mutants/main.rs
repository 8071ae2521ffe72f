//! Holds the stored list to the edits of the original: prints which of them it shows, or chooses its calls anew.
//!
//! Built by scripts/mutants.py, which puts the edited files and their table beside this one.

mod choice;
mod edits;
mod on;
mod pool;
mod tried;

/// The formatter of the source, edited.
mod formatter;

/// The oracle's own check of a call, edited.
mod checks {
    pub mod answers;
    pub mod tape;
    pub mod text;
}

// What the edited files name.
pub use on::{carried, copy, flipped, listed, moved, touch, value_listed, white};
pub use oracle::{kinds, lexer, parser, source};

use oracle::stored;
use pool::Candidate;
use std::fs;
use std::path::Path;

/// Chooses calls, and writes their names and the list to the folder.
fn choose(folder: &Path) {
    let all = choice::choose();
    let names: String = all.iter().map(|one| format!("{}\n", one.name)).collect();
    let records: Vec<_> = all.into_iter().map(|one| one.record).collect();
    let list = stored::write(&records).expect("records that suit the list");
    fs::write(folder.join("cases.txt"), names).expect("the folder can be written");
    fs::write(folder.join("vectors.bin"), list).expect("the folder can be written");
}

/// Prints a line for each edit: whether the list shows it, its family and its name.
fn score(list: &Path) {
    let records = stored::read(&fs::read(list).expect("the list can be read")).expect("a whole list");
    let pool: Vec<Candidate> = records.into_iter().map(|record| Candidate::of(String::new(), record)).collect();
    let mutants = edits::mutants();
    for (mutant, places) in mutants.iter().zip(tried::shown(&mutants, &pool, 1)) {
        println!("{}\t{}\t{}", places.len(), mutant.family, mutant.name);
    }
}

fn main() {
    let words: Vec<String> = std::env::args().skip(1).collect();
    let words: Vec<&str> = words.iter().map(String::as_str).collect();
    match words[..] {
        ["choose", folder] => choose(Path::new(folder)),
        ["score", list] => score(Path::new(list)),
        _ => panic!("usage: mutants choose FOLDER, or mutants score LIST"),
    }
}
