//! The stored books of the report program (crates/report/runs): what is stored for each is the oracle's report, and those that are named by
//! class and index are the cases of seed 1.

mod common;

use oracle::cases::{make, Class, Made};
use oracle::report::{report, Tally};
use std::fs;
use std::path::PathBuf;

const SEED: u64 = 1;

/// The name of each stored book, its bytes, and what is stored as its report.
fn stored() -> Vec<(String, Vec<u8>, Vec<u8>)> {
    let folder = PathBuf::from(env!("CARGO_MANIFEST_DIR")).join("../../crates/report/runs");
    let files = fs::read_dir(folder).expect("the folder of the stored books").map(|entry| entry.unwrap().path());
    let books = files.filter(|file| file.extension().is_some_and(|extension| extension == "book"));
    let name = |file: &PathBuf| file.file_stem().unwrap().to_str().unwrap().to_string();
    books.map(|file| (name(&file), fs::read(&file).unwrap(), fs::read(file.with_extension("out")).unwrap())).collect()
}

#[test]
fn each_stored_report_is_the_oracles() {
    needs_source!();
    let stored = stored();
    assert!(stored.len() > 50);
    for (name, book, printed) in stored {
        assert!(report(&book, Tally::default()).printed == printed, "{name}");
    }
}

/// The case that a name says, if it says one: a class, an index, and which book of a pair.
fn named(name: &str) -> Option<Vec<u8>> {
    let (name, which) = ["first", "second"]
        .iter()
        .zip(0..)
        .find_map(|(word, which)| Some((name.strip_suffix(word)?.strip_suffix('-')?, which)))
        .unwrap_or((name, 0));
    let (class, index) = name.rsplit_once('-')?;
    match make(SEED, Class::named(class)?, index.parse().ok()?) {
        Made::Book(book) => Some(book),
        Made::BookPair(books) => Some(books[which].clone()),
        _ => None,
    }
}

#[test]
fn books_that_are_named_so_are_cases() {
    needs_source!();
    let cases = stored().into_iter().filter_map(|(name, book, _)| Some((named(&name)?, name, book)));
    let mut count = 0;
    for (case, name, book) in cases {
        count += 1;
        assert!(case == book, "{name}");
    }
    assert_eq!(count, 39, "the stored cases");
}
