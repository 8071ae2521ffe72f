//! Calls at the limits with characters of several bytes: sizes and levels at their most, a character at the very end of a long text,
//! trimming that leaves little.

use super::super::limits::{chain, plain};
use super::super::with_space;
use super::characters;
use super::damaged::broken_character;
use crate::answers::Case;
use crate::edit::put_span;
use crate::kinds::{self, BARE_WORD};
use crate::random::Random;
use crate::tape::{push_close, push_open, push_token, MOST_BYTES, MOST_OPEN, SPAN_COMMAND};
use crate::text::WHITE_SPACE;

/// The kinds of limit that the index goes round.
pub const ROUND: u64 = 15;

pub fn make(random: &mut Random, index: u64) -> Case {
    let number = kinds::number("Number");
    match index % ROUND {
        0 => whole_token(number, of_bytes(MOST_BYTES, random), random),
        1 => plain(of_bytes(MOST_BYTES + 1, random), Vec::new()),
        2 => plain(cut_at_the_end(MOST_BYTES, random), Vec::new()),
        3 => plain(cut_at_the_end(MOST_BYTES + 1, random), Vec::new()),
        4 => plain(broken_first(MOST_BYTES, random), Vec::new()),
        5 => plain(broken_first(30, random), vec![3; MOST_BYTES + 1]),
        6 => plain(of_bytes(30, random), vec![3; MOST_BYTES + 1]),
        7 => whole_token(BARE_WORD, letters_then_one(MOST_BYTES, random), random),
        8 => token_before_the_last(BARE_WORD, letters_then_one(MOST_BYTES, random), random),
        9 => whole_token(number, letters_then_one(MOST_BYTES, random), random),
        10 => cut_by_the_65th_open(random),
        11 => bare_word_64_deep(random),
        12 => every_bound(random),
        13 => trimmed(random),
        _ => white_space_alone(random),
    }
}

/// A text of so many bytes in characters of all lengths.
fn of_bytes(length: usize, random: &mut Random) -> Vec<u8> {
    characters::of_bytes(length, random).into_bytes()
}

/// A text of so many bytes whose last character lacks its last bytes.
fn cut_at_the_end(length: usize, random: &mut Random) -> Vec<u8> {
    let character = characters::of_length(random.within(2, 4), random).to_string();
    let kept = random.within(1, character.len() - 1);
    [of_bytes(length - kept, random), character.as_bytes()[..kept].to_vec()].concat()
}

fn broken_first(length: usize, random: &mut Random) -> Vec<u8> {
    let mut text = broken_character(random);
    text.resize(length, b' ');
    text
}

/// ASCII letters and one character of several bytes, so many bytes together.
fn letters_then_one(length: usize, random: &mut Random) -> Vec<u8> {
    let last = characters::of_length(random.within(2, 4), random).to_string();
    [vec![b'a'; length - last.len()], last.into_bytes()].concat()
}

/// A File with a token of this kind over the whole text.
pub fn whole_token(kind: u16, text: Vec<u8>, random: &mut Random) -> Case {
    let mut tape = Vec::new();
    push_open(&mut tape, kinds::number("File"), 0, text.len() as u32);
    push_token(&mut tape, kind, 0, text.len() as u32);
    push_close(&mut tape);
    with_space(plain(text, tape), random)
}

/// The same with a token that ends before the last character.
fn token_before_the_last(kind: u16, text: Vec<u8>, random: &mut Random) -> Case {
    let last = String::from_utf8_lossy(&text).chars().next_back().map_or(0, char::len_utf8);
    let end = (text.len() - last) as u32;
    let mut case = whole_token(kind, text, random);
    put_span(&mut case.tape, SPAN_COMMAND, (0, end));
    with_space(case, random)
}

/// The 65th open starts inside a character.
fn cut_by_the_65th_open(random: &mut Random) -> Case {
    let text = of_one(random);
    let mut tape = chain(MOST_OPEN, 0);
    tape.truncate(MOST_OPEN * SPAN_COMMAND);
    push_open(&mut tape, kinds::number("File"), 1, text.len() as u32);
    plain(text, tape)
}

/// A character of several bytes.
fn of_one(random: &mut Random) -> Vec<u8> {
    characters::of_length(random.within(2, 4), random).to_string().into_bytes()
}

fn bare_word_64_deep(random: &mut Random) -> Case {
    let text = of_one(random);
    let tape = chain(MOST_OPEN, text.len() as u32);
    plain(text, tape)
}

/// An empty token at each bound of a text of a few characters, and one over each character.
fn every_bound(random: &mut Random) -> Case {
    let text: String = (0..random.below(9)).map(|_| characters::any(random)).collect();
    let mut tape = Vec::new();
    push_open(&mut tape, kinds::number("ColumnReference"), 0, text.len() as u32);
    for (start, character) in text.char_indices() {
        push_token(&mut tape, kinds::number("Number"), start as u32, start as u32);
        push_token(&mut tape, kinds::number("Number"), start as u32, (start + character.len_utf8()) as u32);
    }
    push_token(&mut tape, kinds::number("Number"), text.len() as u32, text.len() as u32);
    push_close(&mut tape);
    with_space(plain(text.into_bytes(), tape), random)
}

/// A layout that is far longer than the space before `finish` trims it, and fits after.
fn trimmed(random: &mut Random) -> Case {
    let whites: String = (0..random.within(200, 800)).map(|_| WHITE_SPACE[random.below(WHITE_SPACE.len())]).collect();
    let letter = of_one(random);
    let start = letter.len() as u32;
    let text = [letter, whites.into_bytes()].concat();
    let mut tape = Vec::new();
    push_open(&mut tape, kinds::number("QualifiedName"), 0, 0);
    push_token(&mut tape, kinds::number("Number"), 0, start);
    (0..40).for_each(|_| push_token(&mut tape, kinds::number("Number"), start, text.len() as u32));
    push_close(&mut tape);
    Case { space: vec![9; random.within(2, 6)], ..plain(text, tape) }
}

/// A text of nothing but white space, of which nothing is left.
fn white_space_alone(random: &mut Random) -> Case {
    let text: String = (0..random.below(60)).map(|_| WHITE_SPACE[random.below(WHITE_SPACE.len())]).collect();
    whole_token(kinds::number("Number"), text.into_bytes(), random)
}
