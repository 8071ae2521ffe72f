//! Changes of a call that is there: kinds and spans of its tape, and its text spelled otherwise with all spans moved along.

use crate::answers::Case;
use crate::tape::{command_places, CLOSE, SPAN_COMMAND};

/// The offsets of the tape's opens and tokens.
pub fn span_commands(tape: &[u8]) -> Vec<usize> {
    let mut places = command_places(tape);
    places.retain(|place| tape[*place] != CLOSE);
    places
}

pub fn kind_at(tape: &[u8], place: usize) -> u16 {
    u16::from_le_bytes([tape[place + 1], tape[place + 2]])
}

pub fn put_kind(tape: &mut [u8], place: usize, kind: u16) {
    tape[place + 1..place + 3].copy_from_slice(&kind.to_le_bytes());
}

/// Start and end of the command at this offset.
pub fn span_at(tape: &[u8], place: usize) -> (u32, u32) {
    let number = |at: usize| u32::from_le_bytes([tape[at], tape[at + 1], tape[at + 2], tape[at + 3]]);
    (number(place + 3), number(place + 7))
}

pub fn put_span(tape: &mut [u8], place: usize, (start, end): (u32, u32)) {
    tape[place + 3..place + 7].copy_from_slice(&start.to_le_bytes());
    tape[place + 7..place + SPAN_COMMAND].copy_from_slice(&end.to_le_bytes());
}

/// The part of the text that the command at this offset spans; none where it runs backwards or passes the text.
pub fn text_at(case: &Case, place: usize) -> Option<&[u8]> {
    let (start, end) = span_at(&case.tape, place);
    case.text.get(start as usize..end as usize)
}

/// The call with what `spell` gives for each place of its text instead of the byte there. Spans move along; those that run backwards or
/// pass the text stay.
pub fn respelled(case: &Case, mut spell: impl FnMut(usize) -> Vec<u8>) -> Case {
    let mut text = Vec::new();
    let mut moved = Vec::new();
    for place in 0..case.text.len() {
        moved.push(text.len() as u32);
        text.extend(spell(place));
    }
    moved.push(text.len() as u32);
    let mut tape = case.tape.clone();
    for place in span_commands(&tape).into_iter().filter(|place| text_at(case, *place).is_some()) {
        let (start, end) = span_at(&tape, place);
        put_span(&mut tape, place, (moved[start as usize], moved[end as usize]));
    }
    Case { text, tape, ..case.clone() }
}
