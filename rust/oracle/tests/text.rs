//! Texts: the table of well-formed sequences and the list of white space beside those of Rust's library, which the source goes by.

use oracle::random::Random;
use oracle::text::{first_ill_formed, is_white_space, table};
use std::collections::BTreeSet;

fn assert_as_the_library(text: &[u8]) {
    let place = std::str::from_utf8(text).err().map(|error| error.valid_up_to());
    assert_eq!(first_ill_formed(text), place, "{text:02X?}");
}

/// The bytes at the ends of the table's ranges, and those beside them.
fn ends() -> Vec<u8> {
    let ends = table().iter().flat_map(|row| row.iter()).flat_map(|(first, last)| [*first, *last]);
    let beside = ends.flat_map(|byte| [byte.wrapping_sub(1), byte, byte.wrapping_add(1)]);
    beside.collect::<BTreeSet<u8>>().into_iter().collect()
}

/// Every text that goes on with so many bytes after these: the first two of any value, the others at the ends of ranges.
fn every_text(front: &[u8], more: usize) {
    assert_as_the_library(front);
    if more > 0 {
        let bytes = if front.len() < 2 { (0..=255).collect() } else { ends() };
        bytes.iter().for_each(|byte| every_text(&[front, &[*byte]].concat(), more - 1));
    }
}

#[test]
fn the_table_says_of_every_short_text_what_the_library_says() {
    every_text(&[], 3);
    (0xED..=0xF5).for_each(|first| every_text(&[first], 3));
}

#[test]
fn the_table_says_of_long_texts_what_the_library_says() {
    let ends = ends();
    for index in 0..100_000 {
        let mut random = Random::of(1, 0, index);
        let mut text: Vec<u8> = (0..random.below(12)).map(|_| ends[random.below(ends.len())]).collect();
        text.splice(0..0, "aé€😀".repeat(random.below(3)).bytes());
        assert_as_the_library(&text);
    }
}

#[test]
fn every_character_is_well_formed_and_no_surrogate_is() {
    let all: String = (char::MIN..=char::MAX).collect();
    assert_eq!(first_ill_formed(all.as_bytes()), None);
    for surrogate in 0xD800..=0xDFFF_u32 {
        let bytes = [0xED, 0x80 | (surrogate >> 6 & 0x3F) as u8, 0x80 | (surrogate & 0x3F) as u8];
        assert_eq!(first_ill_formed(&bytes), Some(0), "{surrogate:X}");
    }
}

#[test]
fn white_space_is_what_the_library_takes_for_it() {
    for character in char::MIN..=char::MAX {
        assert_eq!(is_white_space(character), character.is_whitespace(), "U+{:04X}", u32::from(character));
    }
}
