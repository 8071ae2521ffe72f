//! Words: their answers, the class that makes them, and the stored list.

mod common;

use oracle::answers::Answer;
use oracle::cases::{make, Class, Made};
use oracle::source::{is_keyword, keywords};
use oracle::stored::words::{list, read, Stored};
use oracle::words::answer;
use std::collections::{BTreeMap, BTreeSet};

const LIST: &str = include_str!("../../../vectors/words.txt");

fn stored() -> Vec<Stored> {
    read(LIST).expect("a list")
}

fn answered(word: &str) -> (u64, u64) {
    let Answer { number, second } = answer(word.as_bytes());
    (number, second)
}

#[test]
fn plain_words_value_words_and_keywords() {
    needs_source!();
    assert_eq!(["", "a", "SELECTS", "_", "ſelect"].map(answered), [(0, 0); 5]);
    assert_eq!(["select", "From", "KEYED"].map(answered), [(2, 0), (2, 1), (2, 216)]);
    assert_eq!(["NULL", "true", "False"].map(answered), [(1, 97), (1, 98), (1, 99)]);
    assert_eq!(answer(b"\xFF"), Answer { number: 0, second: 0 });
}

#[test]
fn an_entrys_place_is_where_it_stands() {
    needs_source!();
    for (place, entry) in keywords().iter().enumerate() {
        let number = if ["TRUE", "FALSE", "NULL"].contains(entry) { 1 } else { 2 };
        assert_eq!(answered(entry), (number, place as u64), "{entry}");
    }
}

#[test]
fn the_list_is_made_again_byte_for_byte() {
    needs_source!();
    assert!(list() == LIST, "run `oracle words` and write what it prints to vectors/words.txt");
}

#[test]
fn every_word_is_there_once() {
    let words: BTreeSet<Vec<u8>> = stored().into_iter().map(|one| one.word).collect();
    assert_eq!(words.len(), stored().len());
}

#[test]
fn the_list_has_every_sort_and_length_and_bytes_above_127() {
    let mut numbers = BTreeMap::new();
    stored().iter().for_each(|one| *numbers.entry(one.answer.number).or_insert(0) += 1);
    assert_eq!(numbers, [(0, 1_647), (1, 64), (2, 434)].into());
    let lengths: BTreeSet<usize> = stored().iter().map(|one| one.word.len()).collect();
    assert!((0..=14).all(|length| lengths.contains(&length)), "{lengths:?}");
    assert!(stored().iter().filter(|one| !one.word.is_ascii()).count() > 217);
}

#[test]
fn the_list_has_every_entry_in_capitals_and_in_another_case() {
    needs_source!();
    let words: Vec<Vec<u8>> = stored().into_iter().map(|one| one.word).collect();
    for entry in keywords() {
        let found = words.iter().filter(|word| word.eq_ignore_ascii_case(entry.as_bytes())).count();
        assert!(words.iter().any(|word| word == entry.as_bytes()) && found >= 2, "{entry}");
    }
}

/// The source changes the case of all letters, and so takes some words beyond ASCII for keywords; they are plain here.
#[test]
fn the_list_has_words_that_the_source_takes_for_keywords() {
    needs_source!();
    let taken = |one: &Stored| std::str::from_utf8(&one.word).is_ok_and(|text| !text.is_ascii() && is_keyword(text));
    let words: Vec<Stored> = stored().into_iter().filter(taken).collect();
    assert_eq!(words.len(), 7);
    assert!(words.iter().all(|one| one.answer == Answer { number: 0, second: 0 }));
}

#[test]
fn what_is_no_list_is_not_read() {
    assert_eq!(read("2 0 \"\\x53ELECT\"\n").unwrap()[0].word, b"SELECT");
    for line in ["2 0", "2 0 SELECT", "2 0 \"SELECT", "2 \"SELECT\"", "a 0 \"SELECT\"", "2 0 \"\\x5\"", "2 0 \"\\xGG\""]
    {
        assert!(read(line).is_none(), "{line}");
    }
}

#[test]
fn the_class_makes_every_sort_and_every_entry() {
    needs_source!();
    let mut numbers = BTreeMap::new();
    let mut places = BTreeSet::new();
    for index in 0..20_000 {
        let Made::Word(word) = make(1, Class::Words, index) else { panic!("the class makes words") };
        let Answer { number, second } = answer(&word);
        *numbers.entry(number).or_insert(0) += 1;
        places.extend((number != 0).then_some(second));
    }
    assert_eq!(places.len(), keywords().len());
    assert!(numbers.len() == 3 && numbers.values().all(|count| *count > 1_000), "{numbers:?}");
}
