//! Calls over texts with characters of one to four bytes: a parser's and wild calls of ASCII, translated.

pub mod characters;
pub mod damaged;
pub mod limits;
pub mod masked;
pub mod small;

use super::some_call;
use crate::answers::Case;
use crate::edit::{kind_at, put_kind, respelled, span_at, span_commands, text_at};
use crate::kinds::{self, BARE_WORD};
use crate::random::Random;
use crate::source;
use crate::tape::TOKEN;
use crate::text::accepted;
use std::ops::Range;

/// A good call with an empty output space.
pub fn make(random: &mut Random) -> Case {
    let call = some_call(random);
    translated(call, random)
}

/// The call with other characters in place of some of its text's. Bare words stay as they are, for they are ASCII; some names are put in
/// quotes before.
fn translated(mut case: Case, random: &mut Random) -> Case {
    free_odd_words(&mut case, random);
    let quoted = quote_some_names(&mut case, random);
    let kept = in_bare_words(&case);
    let share = [10, 40, 90][random.below(3)];
    respelled(&case, |place| {
        let byte = case.text[place];
        let stays = kept[place] || !random.percent(share * readiness(byte) / 100);
        let character = if stays { char::from(byte) } else { like(byte, random) };
        let opening = if quoted.iter().any(|span| span.start == place) { "`" } else { "" };
        let closing = if quoted.iter().any(|span| span.end == place + 1) { "`" } else { "" };
        format!("{opening}{character}{closing}").into_bytes()
    })
}

/// Gives bare words that are no words another kind: they would keep most of a wild call's text as it is.
fn free_odd_words(case: &mut Case, random: &mut Random) {
    let in_word = |byte: &u8| byte.is_ascii_alphanumeric() || *byte == b'_';
    for place in bare_words(case) {
        if !text_at(case, place).is_some_and(|text| text.iter().all(in_word)) {
            let kind = random.pick(&["Number", "StringToken", "QuotedIdentifier", "Comment", "Whitespace", "Plus"]);
            put_kind(&mut case.tape, place, kinds::number(kind));
        }
    }
}

/// Makes quoted names of some bare words that are no keywords; hands back their spans.
fn quote_some_names(case: &mut Case, random: &mut Random) -> Vec<Range<usize>> {
    let mut quoted = Vec::new();
    for place in bare_words(case) {
        let text = text_at(case, place).map(accepted).unwrap_or_default();
        if !text.is_empty() && !source::is_keyword(text) && random.percent(25) {
            put_kind(&mut case.tape, place, kinds::number("QuotedIdentifier"));
            let (start, end) = span_at(&case.tape, place);
            quoted.push(start as usize..end as usize);
        }
    }
    quoted
}

/// The offsets of the tape's bare words.
fn bare_words(case: &Case) -> Vec<usize> {
    let is_bare_word = |place: &usize| case.tape[*place] == TOKEN && kind_at(&case.tape, *place) == BARE_WORD;
    span_commands(&case.tape).into_iter().filter(is_bare_word).collect()
}

/// For each place of the text whether a bare word holds it.
fn in_bare_words(case: &Case) -> Vec<bool> {
    let mut held = vec![false; case.text.len()];
    for place in bare_words(case) {
        let (start, end) = span_at(&case.tape, place);
        if let Some(part) = held.get_mut(start as usize..end as usize) {
            part.fill(true);
        }
    }
    held
}

/// How likely a byte is translated, of 100. Those that decide on the layout stay more often.
fn readiness(byte: u8) -> usize {
    match byte {
        b'\n' | b'-' => 5,
        b'\'' | b'"' | b'`' => 10,
        b' ' | b'\t'..=b'\r' => 40,
        _ => 100,
    }
}

/// What may stand for a byte: white space mostly for white space.
fn like(byte: u8, random: &mut Random) -> char {
    if byte.is_ascii_whitespace() && random.percent(80) {
        characters::white_or_near(random)
    } else {
        characters::any(random)
    }
}
