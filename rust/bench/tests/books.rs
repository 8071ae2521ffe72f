//! The port's report over a book is the oracle's, byte for byte: by the library's call, and by the program target/bin/report, which
//! scripts/programs.sh writes, on standard input.

mod cases;
mod program;

use cases::agree;
use oracle::cases::{make, Class, Made};
use oracle::report::{report, Tally};

const SEED: u64 = 61;

// The library

#[test]
fn books() {
    agree("books", SEED, Class::Books, 30_000);
}

#[test]
fn damaged_books() {
    agree("damaged_books", SEED, Class::BooksDamaged, 20_000);
}

#[test]
fn masked_books() {
    agree("masked_books", SEED, Class::BooksMasked, 2_000);
}

#[test]
fn limits() {
    agree("limits", SEED, Class::BooksLimits, 64);
}

// The program

/// What the program prints for the book.
fn printed(book: &[u8]) -> Vec<u8> {
    program::printed("report", book)
}

fn right(book: &[u8]) -> Vec<u8> {
    report(book, Tally::default()).printed
}

#[test]
fn an_empty_book_by_the_program() {
    assert_eq!(printed(b""), b"total jobs 0 refused 0 bytes 0 lines 0\n");
}

#[test]
fn eighteen_and_nineteen_by_the_program() {
    let empty_jobs = |count: usize| [0x20, 0, 0, 0, 0].repeat(count);
    assert_eq!(printed(&[0]), b"refused 18 at 0\n");
    assert_eq!(printed(&[&empty_jobs(3)[..], &[0x20, 0]].concat()), b"refused 18 at 15\n");
    assert_eq!(printed(&[0; 65_537]), b"refused 18 at 65536\n");
    assert_eq!(printed(&[0; 65_536]), b"refused 18 at 0\n");
    assert_eq!(printed(&empty_jobs(257)), b"refused 19 at 1280\n");
    assert_eq!(printed(&[&empty_jobs(256)[..], &[0]].concat()), b"refused 18 at 1280\n");
    let printed = String::from_utf8(printed(&empty_jobs(256))).expect("a report is ASCII");
    assert!(printed.ends_with("256 refused 14 at 0\ntotal jobs 256 refused 256 bytes 0 lines 0\n"), "{printed}");
}

#[test]
fn generated_books_by_the_program() {
    if !oracle::source::at_hand_for("generated_books_by_the_program") {
        return;
    }
    for (class, count) in [(Class::Books, 1_000), (Class::BooksDamaged, 500), (Class::BooksLimits, 64)] {
        for index in 0..count {
            let Made::Book(book) = make(SEED, class, index) else { panic!("the class makes books") };
            assert!(printed(&book) == right(&book), "seed {SEED}, {class:?}, index {index}");
        }
    }
}

/// Both books of a pair have one report, and it is the oracle's.
#[test]
fn masked_books_by_the_program() {
    if !oracle::source::at_hand_for("masked_books_by_the_program") {
        return;
    }
    for index in 0..500 {
        let Made::BookPair([first, second]) = make(SEED, Class::BooksMasked, index) else { panic!("it makes pairs") };
        let one = printed(&first);
        assert!(one == printed(&second), "seed {SEED}, index {index}: the reports of a pair");
        assert!(one == right(&first), "seed {SEED}, index {index}");
    }
}
