//! Map calls at the limits: both spaces at the needed length and about it, the most tokens, lines and columns, 17 beside other refusals.

use super::super::limits::{chain, plain};
use super::super::{limits, utf8};
use super::{good, lent, with_map};
use crate::answers::{formatted, Case};
use crate::kinds;
use crate::map::{needed, MapCase};
use crate::random::Random;
use crate::tape::{push_close, push_open, push_token, MOST_BYTES, MOST_OPEN, SPAN_COMMAND};

/// The lengths of each space that are tried with each of the other.
const LENGTHS: u64 = 4;

/// The kinds of limit that the index goes round.
pub const ROUND: u64 = LENGTHS * LENGTHS + 20;

pub fn make(random: &mut Random, index: u64) -> MapCase {
    let turn = index % ROUND;
    if turn < LENGTHS * LENGTHS {
        let sort = random.next();
        let call = good(random, sort);
        return spaces(call, turn % LENGTHS, turn / LENGTHS, random);
    }
    match turn - LENGTHS * LENGTHS {
        0 => lent(plain(Vec::new(), chain(1, 0)), 0, random),
        1 => lent(plain(Vec::new(), chain(1, 0)), 5, random),
        2 => nothing_written(1, random),
        3 => nothing_written(0, random),
        4 => exact(full_tape("ExpressionList"), random),
        5 => short(full_tape("ExpressionList"), random),
        6 => exact(full_tape("Error"), random),
        7 => short(full_tape("Error"), random),
        8 => exact(two_tokens(b'\n'), random),
        9 => exact(two_tokens(b'x'), random),
        10 => exact(deep_indent(random), random),
        11 => exact(long_output(random), random),
        12 => exact(trimmed(random), random),
        13 => exact(plain(b"a".to_vec(), chain(MOST_OPEN, 1)), random),
        14 => with_map(Case { width: 17, ..good(random, index) }, random),
        15 => with_map(Case { case: 2, ..good(random, index) }, random),
        16 => lent(plain(vec![b' '; MOST_BYTES + 1], chain(1, 1)), 0, random),
        17 => lent(plain(Vec::new(), vec![3; MOST_BYTES + 1]), 0, random),
        18 => with_map(limits::make(random, index / ROUND), random),
        _ => with_map(utf8::limits::make(random, index / ROUND), random),
    }
}

/// The needed length, one less, five more or none.
fn length(needed: usize, which: u64) -> usize {
    [needed, needed.saturating_sub(1), needed + 5, 0][which as usize]
}

fn spaces(mut call: Case, bytes: u64, numbers: u64, random: &mut Random) -> MapCase {
    let output = formatted(&call).expect("a good call");
    let count = needed(&call).expect("a good call");
    call.space = vec![0xAA; length(output.len(), bytes)];
    lent(call, length(count, numbers), random)
}

/// The call with both spaces as long as it needs.
fn exact(call: Case, random: &mut Random) -> MapCase {
    spaces(call, 0, 0, random)
}

/// The call with a map space that is one number short.
fn short(call: Case, random: &mut Random) -> MapCase {
    spaces(call, 0, 1, random)
}

/// A layout of no byte, with tokens, in spaces of no byte and of so many numbers less than needed.
fn nothing_written(less: usize, random: &mut Random) -> MapCase {
    let tokens = random.within(1, 4);
    let mut tape = Vec::new();
    push_open(&mut tape, kinds::number("File"), 0, 2);
    (0..tokens).for_each(|_| push_token(&mut tape, kinds::number("Whitespace"), 0, random.below(3) as u32));
    push_close(&mut tape);
    lent(Case { space: Vec::new(), ..plain(b" \n".to_vec(), tape) }, 2 * tokens - less, random)
}

/// A root of this kind with as many tokens as a tape has room for; every third is a sign.
fn full_tape(root: &str) -> Case {
    let text = b"a\n,".to_vec();
    let mut tape = Vec::new();
    push_open(&mut tape, kinds::number(root), 0, 3);
    for number in 0..(MOST_BYTES - SPAN_COMMAND - 1) / SPAN_COMMAND {
        let (kind, start) = [("Number", 0), ("Number", 1), ("Comma", 2)][number % 3];
        push_token(&mut tape, kinds::number(kind), start, start + 1);
    }
    push_close(&mut tape);
    plain(text, tape)
}

/// A token of this byte as often as a text has room for, and a token after it.
fn two_tokens(byte: u8) -> Case {
    let mut text = vec![byte; MOST_BYTES];
    text[MOST_BYTES - 1] = b'z';
    let last = MOST_BYTES as u32 - 1;
    let mut tape = Vec::new();
    push_open(&mut tape, kinds::number("QualifiedName"), 0, 0);
    push_token(&mut tape, kinds::number("StringToken"), 0, last);
    push_token(&mut tape, kinds::number("Number"), last, last + 1);
    push_close(&mut tape);
    plain(text, tape)
}

/// Indents that grow without an end: every bracket opens a level that nothing closes.
fn deep_indent(random: &mut Random) -> Case {
    let mut tape = Vec::new();
    push_open(&mut tape, kinds::number("SubqueryExpression"), 0, 1);
    (0..random.within(50, 200)).for_each(|_| push_token(&mut tape, kinds::number("OpeningRoundBracket"), 0, 1));
    push_close(&mut tape);
    Case { width: 16, ..plain(b"x".to_vec(), tape) }
}

/// More lines than the text has bytes.
fn long_output(random: &mut Random) -> Case {
    let mut text = vec![b'\n'; 1000];
    text.push(b'x');
    let mut tape = Vec::new();
    push_open(&mut tape, kinds::number("ExpressionList"), 0, 0);
    for _ in 0..random.within(64, 70) {
        push_token(&mut tape, kinds::number("StringToken"), 0, 1000);
        push_token(&mut tape, kinds::number("Number"), 1000, 1001);
    }
    push_close(&mut tape);
    plain(text, tape)
}

/// A layout that loses most of its tokens to trimming.
fn trimmed(random: &mut Random) -> Case {
    let text = "a \n\u{3000}".as_bytes().to_vec();
    let mut tape = Vec::new();
    push_open(&mut tape, kinds::number("QualifiedName"), 0, 0);
    push_token(&mut tape, kinds::number("Number"), 1, 6);
    push_token(&mut tape, kinds::number("Number"), 0, random.within(1, 3) as u32);
    for _ in 0..random.within(20, 60) {
        let (start, end) = [(1, 2), (2, 3), (3, 6), (1, 6), (2, 2)][random.below(5)];
        push_token(&mut tape, kinds::number("Number"), start, end);
    }
    push_close(&mut tape);
    plain(text, tape)
}
