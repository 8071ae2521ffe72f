//! The stored list: it is what the oracle answers to the calls that are named beside it, and what its description promises to a reader.

mod common;

use oracle::answers::{answer, Answer, Case};
use oracle::arms;
use oracle::stored::{names, read, write, Record, MOST_STORED};
use std::collections::BTreeSet;

const LIST: &[u8] = include_bytes!("../../../vectors/vectors.bin");
const NAMES: &str = include_str!("../../../vectors/cases.txt");

fn records() -> Vec<Record> {
    read(LIST).expect("a whole list")
}

#[test]
fn the_list_is_made_again_byte_for_byte() {
    needs_source!();
    let records: Vec<Record> = NAMES.lines().map(|line| Record::of(names::call(line).unwrap())).collect();
    assert!(write(&records).unwrap() == LIST, "run the oracle's `stored` on vectors/cases.txt");
}

#[test]
fn the_oracle_answers_as_the_list_says() {
    needs_source!();
    for (record, name) in records().iter().zip(NAMES.lines()) {
        assert_eq!(answer(&record.case), record.answered(), "{name}");
    }
}

#[test]
fn every_name_is_there_once() {
    assert_eq!(NAMES.lines().collect::<BTreeSet<_>>().len(), NAMES.lines().count());
    assert_eq!(records().len(), NAMES.lines().count());
}

#[test]
fn a_list_is_read_as_it_was_written() {
    assert!(write(&records()).unwrap() == LIST);
}

#[test]
fn a_list_cut_short_or_too_long_is_not_read() {
    assert_eq!(read(&LIST[..LIST.len() - 1]), None);
    assert_eq!(read(&[LIST, &[0]].concat()), None);
    assert_eq!(read(&[]), None);
}

#[test]
fn there_are_2000_records_with_every_answer() {
    let records = records();
    assert!(records.len() >= 2_000, "{}", records.len());
    let numbers: BTreeSet<u64> = records.iter().map(|record| record.laid_out.number).collect();
    assert_eq!(numbers, (0..=13).chain(15..=16).collect());
}

#[test]
fn every_arm_is_taken() {
    needs_source!();
    let mut left = arms::every();
    for record in records() {
        arms::taken(&record.case).iter().for_each(|arm| _ = left.remove(arm));
    }
    assert!(left.is_empty(), "{left:?}");
}

#[test]
fn a_record_that_does_not_suit_the_list_is_not_written() {
    let suits = |text: usize, last: u8, space: usize| {
        let text = [vec![1; MOST_STORED], vec![last; text]].concat();
        let case = Case { text, tape: Vec::new(), width: 4, case: 1, space: vec![255; space] };
        write(&[Record { case, laid_out: Answer { number: 12, second: 0 }, layout: Vec::new() }]).is_ok()
    };
    assert!(suits(0, 0, MOST_STORED));
    assert!(suits(1, 0, 0));
    assert!(!suits(1, 1, 0));
    assert!(!suits(0, 0, MOST_STORED + 1));
}

#[test]
fn a_name_that_no_call_has_is_refused() {
    for name in
        ["", "hand nothing", "1 parser", "1 Parser 0", "1 parser 0 first", "1 masked 0", "1 masked 0 third", "1 jobs 0"]
    {
        if name.starts_with('1') && !oracle::source::AT_HAND {
            continue;
        }
        assert!(names::call(name).is_err(), "{name}");
    }
}
