//! Calls at the limits: sizes, levels, settings and output spaces at their most and one past it.

use super::{some_call, with_space};
use crate::answers::{formatted, Case};
use crate::kinds;
use crate::random::Random;
use crate::tape::{push_close, push_open, push_token, MOST_BYTES, MOST_OPEN};

/// The kinds of limit that the index goes round.
pub const ROUND: u64 = 24;

pub fn make(random: &mut Random, index: u64) -> Case {
    match index % ROUND {
        0 => plain(Vec::new(), Vec::new()),
        1 => with_space(plain(Vec::new(), chain(1, 0)), random),
        2 => one_token(MOST_BYTES, random),
        3 => one_token(MOST_BYTES + 1, random),
        4 => plain(vec![b' '; MOST_BYTES + 1], Vec::new()),
        5 => with_space(plain(Vec::new(), full_tape()), random),
        6 => plain(Vec::new(), vec![3; MOST_BYTES + 1]),
        7 => plain(Vec::new(), vec![3; MOST_BYTES]),
        8 => with_space(plain(b"a".to_vec(), chain(MOST_OPEN, 1)), random),
        9 => plain(b"a".to_vec(), chain(MOST_OPEN + 1, 1)),
        10 => exact_space(0, random),
        11 => exact_space(1, random),
        12 => short_space(random),
        13 => Case { space: Vec::new(), ..some_call(random) },
        14 => settings(16, 1, random),
        15 => settings(17, 0, random),
        16 => settings(0, 2, random),
        17 => settings(u64::MAX, u64::MAX, random),
        18 => settings(1 << 32, 1 << 32, random),
        19 => high_byte(0),
        20 => high_byte(MOST_BYTES - 1),
        21 => trimmed(random),
        22 => long_output(random),
        _ => deep_indent(random),
    }
}

pub fn plain(text: Vec<u8>, tape: Vec<u8>) -> Case {
    Case { text, tape, width: 4, case: 1, space: vec![7; 9] }
}

/// So many File nodes one in another, and in the innermost a token over so many bytes if any.
pub fn chain(levels: usize, token_length: u32) -> Vec<u8> {
    let mut tape = Vec::new();
    (0..levels).for_each(|_| push_open(&mut tape, kinds::number("File"), 0, token_length));
    if token_length > 0 {
        push_token(&mut tape, kinds::number("BareWord"), 0, token_length);
    }
    (0..levels).for_each(|_| push_close(&mut tape));
    tape
}

fn one_token(length: usize, random: &mut Random) -> Case {
    let text = (0..length).map(|_| b'a' + random.below(26) as u8).collect();
    with_space(plain(text, chain(1, length as u32)), random)
}

/// A good tape of the most bytes: a root, 8 tokens and 21,837 empty nodes.
fn full_tape() -> Vec<u8> {
    let mut tape = Vec::new();
    push_open(&mut tape, kinds::number("QualifiedName"), 0, 0);
    (0..8).for_each(|_| push_token(&mut tape, kinds::number("BareWord"), 0, 0));
    while tape.len() + 12 < MOST_BYTES {
        push_open(&mut tape, kinds::number("QualifiedName"), 0, 0);
        push_close(&mut tape);
    }
    push_close(&mut tape);
    tape
}

/// A call whose space is full to the last byte, or has so many bytes over.
fn exact_space(over: usize, random: &mut Random) -> Case {
    let mut case = some_call(random);
    let needed = formatted(&case).expect("a good call").len();
    case.space = vec![0xAA; needed + over];
    case
}

/// A call whose space is one byte short.
fn short_space(random: &mut Random) -> Case {
    let mut case = exact_space(0, random);
    case.space.pop();
    case
}

fn settings(width: u64, case: u64, random: &mut Random) -> Case {
    with_space(Case { width, case, ..some_call(random) }, random)
}

fn high_byte(place: usize) -> Case {
    let mut text = vec![b' '; MOST_BYTES];
    text[place] = 128;
    plain(text, Vec::new())
}

/// A layout that is far longer than the space before `finish` trims it, and fits after.
fn trimmed(random: &mut Random) -> Case {
    let blanks = random.within(500, 2000) as u32;
    let mut text = b"a".to_vec();
    text.resize(1 + blanks as usize, b' ');
    let mut tape = Vec::new();
    push_open(&mut tape, kinds::number("QualifiedName"), 0, 0);
    push_token(&mut tape, kinds::number("Number"), 0, 1);
    (0..40).for_each(|_| push_token(&mut tape, kinds::number("Number"), 1, 1 + blanks));
    push_close(&mut tape);
    Case { space: vec![9; random.within(1, 3)], ..plain(text, tape) }
}

/// A layout above 65,536 bytes from a short text.
fn long_output(random: &mut Random) -> Case {
    let text = vec![b'x'; 1000];
    let mut tape = Vec::new();
    push_open(&mut tape, kinds::number("ExpressionList"), 0, 0);
    (0..random.within(64, 70)).for_each(|_| push_token(&mut tape, kinds::number("Number"), 0, 1000));
    push_close(&mut tape);
    with_space(plain(text, tape), random)
}

/// Indents that grow without an end: every bracket opens a level that nothing closes.
fn deep_indent(random: &mut Random) -> Case {
    let mut tape = Vec::new();
    push_open(&mut tape, kinds::number("SubqueryExpression"), 0, 0);
    (0..random.within(50, 200)).for_each(|_| push_token(&mut tape, kinds::number("OpeningRoundBracket"), 0, 0));
    push_close(&mut tape);
    with_space(Case { width: 16, ..plain(Vec::new(), tape) }, random)
}
