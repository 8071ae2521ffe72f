//! The stored list of map calls: it is what the oracle answers, and what its description promises to a reader.

mod common;

use oracle::map::answer;
use oracle::stored::maps::{every, read, write, MapRecord, MOST_NUMBERS};
use std::collections::BTreeMap;

const LIST: &[u8] = include_bytes!("../../../vectors/maps.bin");

fn records() -> Vec<MapRecord> {
    read(LIST).expect("a whole list")
}

#[test]
fn the_list_is_made_again_byte_for_byte() {
    needs_source!();
    let made = write(&every()).expect("records that suit the list");
    assert!(made == LIST, "run `oracle stored-maps` and write what it prints to vectors/maps.bin");
}

#[test]
fn the_oracle_answers_as_the_list_says() {
    needs_source!();
    for (place, record) in records().iter().enumerate() {
        assert_eq!(answer(&record.case()), record.mapped(), "record {place}");
    }
}

#[test]
fn a_list_is_read_as_it_was_written() {
    assert!(write(&records()).as_deref() == Some(LIST));
}

#[test]
fn a_list_cut_short_or_too_long_is_not_read() {
    assert_eq!(read(&LIST[..LIST.len() - 1]), None);
    assert_eq!(read(&[LIST, &[0]].concat()), None);
    assert_eq!(read(&[]), None);
}

#[test]
fn there_is_every_answer() {
    let mut numbers = BTreeMap::new();
    records().iter().for_each(|record| *numbers.entry(record.answer().number).or_insert(0) += 1);
    assert!(numbers.keys().copied().eq((0..=13).chain(15..=17)), "{numbers:?}");
    assert!(numbers[&0] > 500 && numbers[&13] > 25 && numbers[&17] > 25, "{numbers:?}");
}

#[test]
fn there_are_tokens_with_a_place_and_without_one() {
    let maps: Vec<u64> = records().into_iter().flat_map(|record| record.map).collect();
    let (without, with): (Vec<&[u64]>, Vec<&[u64]>) = maps.chunks(2).partition(|place| *place == [0, 0]);
    assert!(with.len() > 2_000 && without.len() > 2_000, "{} and {}", with.len(), without.len());
    assert!(with.iter().all(|place| !place.contains(&0)));
}

#[test]
fn a_map_space_that_is_too_long_is_not_written() {
    let with = |numbers| write(&[MapRecord { numbers, ..records()[0].clone() }]);
    assert!(with(MOST_NUMBERS).is_some());
    assert!(with(MOST_NUMBERS + 1).is_none());
}
