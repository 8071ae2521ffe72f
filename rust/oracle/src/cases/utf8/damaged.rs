//! Calls with the faults that characters bring: a text that is not well-formed, spans inside characters, bare words beyond ASCII, and
//! two faults in one command.

use super::super::damaged::{self, put_under, some_command};
use super::super::with_space;
use super::characters;
use super::limits::whole_token;
use crate::answers::Case;
use crate::edit::{put_kind, put_span, span_at, span_commands, text_at};
use crate::kinds::{self, BARE_WORD, NOT_CARRIED};
use crate::random::Random;
use crate::tape::{push_token, MOST_OPEN, OPEN, SPAN_COMMAND, TOKEN};
use crate::text::table;

pub fn make(random: &mut Random) -> Case {
    if random.percent(15) {
        return one_token(random);
    }
    let mut case = super::make(random);
    if case.text.is_ascii() {
        let character = characters::of_length(random.within(2, 4), random);
        case.text.extend(character.to_string().bytes());
    }
    let faults = [1, 1, 1, 2][random.below(4)];
    for _ in 0..faults {
        damage(&mut case, random);
    }
    with_space(case, random)
}

/// One fault, or two in one command; a few of them leave the call good.
fn damage(case: &mut Case, random: &mut Random) {
    match random.below(12) {
        0..=3 => ill_form(&mut case.text, random),
        4..=6 => cut_a_character(case, random),
        7 => bare_word_beyond_ascii(case, random),
        8..=10 => two_at_once(case, random),
        _ => damaged::damage(case, random),
    }
}

// One token over a short text

fn one_token(random: &mut Random) -> Case {
    match random.below(3) {
        0 => run_of_ascii(random),
        1 => broken_after_a_run(random),
        _ => some_place(random),
    }
}

/// A run of ASCII of any length up to some hundred bytes before and after one character, as a bare word or not.
fn run_of_ascii(random: &mut Random) -> Case {
    let text = [run(random), characters::any(random).to_string().into_bytes(), run(random)].concat();
    let kind = [BARE_WORD, kinds::number("Number")][random.below(2)];
    whole_token(kind, text, random)
}

fn run(random: &mut Random) -> Vec<u8> {
    vec![b'x'; random.below(140)]
}

fn broken_after_a_run(random: &mut Random) -> Case {
    let text = [run(random), broken_character(random), run(random)].concat();
    whole_token(kinds::number("Number"), text, random)
}

/// An empty token, or a node over no byte, at any place of a few characters.
fn some_place(random: &mut Random) -> Case {
    let text: String = (0..4).map(|_| characters::any(random)).collect();
    let place = random.below(text.len() + 1) as u32;
    let mut case = whole_token(kinds::number("Number"), text.into_bytes(), random);
    put_span(&mut case.tape, [0, SPAN_COMMAND][random.below(2)], (place, place));
    with_space(case, random)
}

// The text

/// Puts a broken character over the text's bytes, where one begins, or behind them.
fn ill_form(text: &mut Vec<u8>, random: &mut Random) {
    let bytes = broken_character(random);
    let starts: Vec<usize> = (0..text.len()).filter(|place| !is_inside(text, *place)).collect();
    if starts.is_empty() || random.percent(40) {
        text.extend(bytes);
    } else {
        let start = starts[random.below(starts.len())];
        text[start..].iter_mut().zip(bytes).for_each(|(old, new)| *old = new);
    }
}

/// A character of some row of the table with one byte out of its range, or cut before that byte.
pub fn broken_character(random: &mut Random) -> Vec<u8> {
    let row = table()[random.below(table().len())];
    let at = random.below(row.len());
    let mut some_byte = |(first, last): &(u8, u8)| match random.below(3) {
        0 => *first,
        1 => *last,
        _ => random.within(usize::from(*first), usize::from(*last)) as u8,
    };
    let mut bytes: Vec<u8> = row.iter().map(&mut some_byte).collect();
    if at > 0 && random.percent(30) {
        bytes.truncate(at);
    } else {
        bytes[at] = outside(row[at], random);
    }
    bytes
}

/// A byte outside of a range: right beside it, or at some end of the table's ranges.
fn outside((first, last): (u8, u8), random: &mut Random) -> u8 {
    let ends = table().iter().flat_map(|row| row.iter()).flat_map(|(first, last)| [*first, *last]);
    let far: Vec<u8> = ends.chain([0xC0, 0xC1, 0xF5, 0xFF]).filter(|byte| !(first..=last).contains(byte)).collect();
    match random.below(4) {
        0 => first.wrapping_sub(1),
        1 => last.wrapping_add(1),
        _ => far[random.below(far.len())],
    }
}

// Spans

/// Whether a place is inside a character of a well-formed text.
fn is_inside(text: &[u8], place: usize) -> bool {
    (0x80..=0xBF).contains(&text[place])
}

/// A place inside a character.
fn some_inside(text: &[u8], random: &mut Random) -> Option<u32> {
    let places: Vec<usize> = (0..text.len()).filter(|place| is_inside(text, *place)).collect();
    (!places.is_empty()).then(|| places[random.below(places.len())] as u32)
}

/// Moves the start, the end or both of some token or node into a character; also the wrong way round.
fn cut_a_character(case: &mut Case, random: &mut Random) {
    let Some(place) = some_command(&case.tape, &[OPEN, TOKEN], random) else { return };
    let (Some(one), Some(other)) = (some_inside(&case.text, random), some_inside(&case.text, random)) else { return };
    let (start, end) = span_at(&case.tape, place);
    let span = match random.below(5) {
        0 => (one, end.max(one)),
        1 => (start.min(one), one),
        2 => (one, one),
        3 => (one.min(other), one.max(other)),
        _ => (one.max(other), one.min(other)),
    };
    put_span(&mut case.tape, place, span);
}

/// Makes a bare word of a token that holds a byte above 127; if none does, a token comes to hold one.
fn bare_word_beyond_ascii(case: &mut Case, random: &mut Random) {
    let tokens: Vec<usize> = span_commands(&case.tape).into_iter().filter(|place| case.tape[*place] == TOKEN).collect();
    let holds = |place: &usize| text_at(case, *place).is_some_and(|text| !text.is_ascii());
    let holding: Vec<usize> = tokens.iter().copied().filter(holds).collect();
    if !holding.is_empty() {
        put_kind(&mut case.tape, holding[random.below(holding.len())], BARE_WORD);
    } else if !tokens.is_empty() {
        let place = tokens[random.below(tokens.len())];
        put_kind(&mut case.tape, place, BARE_WORD);
        put_span(&mut case.tape, place, (0, case.text.len() as u32));
    }
}

// Two faults in one command

fn two_at_once(case: &mut Case, random: &mut Random) {
    let Some(inside) = some_inside(&case.text, random) else { return };
    let length = case.text.len() as u32;
    let not_carried = NOT_CARRIED[random.below(NOT_CARRIED.len())].1;
    match random.below(11) {
        0 => change(case, TOKEN, None, (inside, length + 1), random),
        1 => change(case, TOKEN, None, (inside, inside.saturating_sub(1)), random),
        2 => change(case, OPEN, None, (inside, length + 1), random),
        3 => change(case, TOKEN, Some(BARE_WORD), (0, length + 1), random),
        4 => change(case, TOKEN, Some(BARE_WORD), (inside, length), random),
        5 => change(case, TOKEN, Some(BARE_WORD), (0, inside), random),
        6 => change(case, OPEN, Some(not_carried), (0, inside), random),
        7 => change(case, OPEN, Some(kinds::COUNT), (inside, inside), random),
        8 => change(case, TOKEN, Some(kinds::COUNT), (inside, inside), random),
        9 => push_token(&mut case.tape, BARE_WORD, 0, inside),
        _ => {
            put_span_of_root(case, (0, inside));
            put_under(&mut case.tape, MOST_OPEN);
        }
    }
}

/// Gives some command of this sort a span, and a kind if one is named.
fn change(case: &mut Case, sort: u8, kind: Option<u16>, span: (u32, u32), random: &mut Random) {
    let Some(place) = some_command(&case.tape, &[sort], random) else { return };
    put_span(&mut case.tape, place, span);
    if let Some(kind) = kind {
        put_kind(&mut case.tape, place, kind);
    }
}

fn put_span_of_root(case: &mut Case, span: (u32, u32)) {
    if case.tape.first() == Some(&OPEN) && span_commands(&case.tape).first() == Some(&0) {
        put_span(&mut case.tape, 0, span);
    }
}
