//! The port says of a word what the oracle does.

use bench::compare::{compare, same_word};
use oracle::cases::Class;
use oracle::source;

const BYTES: std::ops::RangeInclusive<u8> = 0..=255;
const SEED: u64 = 20;

#[track_caller]
fn same(word: &[u8]) {
    same_word(word).unwrap_or_else(|difference| panic!("{difference}"));
}

#[test]
fn every_word_of_at_most_two_bytes() {
    if !source::at_hand_for("every_word_of_at_most_two_bytes") {
        return;
    }
    same(&[]);
    for first in BYTES {
        same(&[first]);
        for second in BYTES {
            same(&[first, second]);
        }
    }
}

#[test]
fn every_entry_in_every_mix_of_cases() {
    if !source::at_hand_for("every_entry_in_every_mix_of_cases") {
        return;
    }
    for word in source::keywords() {
        for small in 0..1u32 << word.len() {
            let letter = |(i, byte): (usize, u8)| if small >> i & 1 == 1 { byte.to_ascii_lowercase() } else { byte };
            same(&word.bytes().enumerate().map(letter).collect::<Vec<u8>>());
        }
    }
}

#[test]
fn every_entry_with_one_byte_changed_removed_or_added() {
    if !source::at_hand_for("every_entry_with_one_byte_changed_removed_or_added") {
        return;
    }
    for word in source::keywords() {
        let word = word.as_bytes();
        for at in 0..=word.len() {
            let (before, after) = word.split_at(at);
            for byte in BYTES {
                same(&[before, &[byte], after].concat());
            }
            if let [_, rest @ ..] = after {
                same(&[before, rest].concat());
                for byte in BYTES {
                    same(&[before, &[byte], rest].concat());
                }
            }
        }
    }
}

/// An entry that goes on: with its own letters, and up to lengths whose low byte is an entry's.
#[test]
fn every_entry_in_a_longer_word() {
    if !source::at_hand_for("every_entry_in_a_longer_word") {
        return;
    }
    for word in source::keywords() {
        for length in (word.len() + 1..=40).chain(250..=270) {
            same(&word.bytes().cycle().take(length).collect::<Vec<u8>>());
        }
    }
}

#[test]
fn random_words() {
    if !source::at_hand_for("random_words") {
        return;
    }
    for index in 0..300_000 {
        compare(SEED, Class::Words, index).unwrap_or_else(|difference| panic!("{difference}"));
    }
}

/// An entry of the code's table, as its line has it: `\x06SELECT\`, the last with a quote at its end.
fn entry(line: &str) -> Option<(usize, &str)> {
    let line = line.trim().strip_prefix("\\x")?;
    let (length, letters) = line.split_at(2);
    Some((usize::from_str_radix(length, 16).ok()?, letters.trim_end_matches(['\\', '"', ';'])))
}

/// The list of the definition, and the table of the code, have the source's entries in the source's order.
#[test]
fn the_lists_keep_the_sources_order() {
    if !source::at_hand_for("the_lists_keep_the_sources_order") {
        return;
    }
    let names = include_str!("../../../crates/keywords/specs/Names.antt");
    let quoted: Vec<&str> = names.split('"').skip(1).step_by(2).collect();
    assert_eq!(quoted, source::keywords());
    let code = include_str!("../../../crates/keywords/src/table.rt");
    let entries: Vec<(usize, &str)> = code.lines().filter_map(entry).collect();
    let expected: Vec<(usize, &str)> = source::keywords().iter().map(|word| (word.len(), *word)).collect();
    assert_eq!(entries, expected);
}
