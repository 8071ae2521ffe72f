//! Calls with faults: a good call whose tape, text or settings are damaged once or more.

use super::{some_call, with_space};
use crate::answers::Case;
use crate::edit::{put_kind, put_span};
use crate::kinds;
use crate::random::Random;
use crate::tape::{command_places, push_close, push_open, push_token, CLOSE, MOST_OPEN, OPEN, TOKEN};

pub fn make(random: &mut Random) -> Case {
    let mut case = some_call(random);
    let faults = [1, 1, 1, 2, 3][random.below(5)];
    for _ in 0..faults {
        damage(&mut case, random);
    }
    with_space(case, random)
}

/// One fault; a few of them leave the call good.
pub fn damage(case: &mut Case, random: &mut Random) {
    match random.below(16) {
        0 => case.width = beyond(16, random),
        1 => case.case = beyond(1, random),
        2 => high_byte(&mut case.text, random),
        3 => cut_text(&mut case.text, random),
        4 => {
            let length = random.below(case.tape.len() + 1);
            case.tape.truncate(length);
        }
        5 => flip_byte(&mut case.tape, random),
        6 => wrong_command(&mut case.tape, random),
        7 => append(&mut case.tape, random),
        8 => drop_command(&mut case.tape, random),
        9 => too_deep(&mut case.tape, random),
        10..=12 => wrong_kind(&mut case.tape, random),
        _ => wrong_span(&mut case.tape, case.text.len() as u32, random),
    }
}

/// A setting above its most, among them those whose low 8 or 32 bits are in the range.
fn beyond(most: u64, random: &mut Random) -> u64 {
    match random.below(6) {
        0 => most + 1,
        1 => 256 + most,
        2 => 1 << 32,
        3 => u64::MAX,
        4 => 1 << 63,
        _ => random.next(),
    }
}

fn high_byte(text: &mut [u8], random: &mut Random) {
    if !text.is_empty() {
        let place = random.below(text.len());
        text[place] = 128 + random.below(128) as u8;
    }
}

fn cut_text(text: &mut Vec<u8>, random: &mut Random) {
    let length = random.below(text.len() + 1);
    text.truncate(length);
}

fn flip_byte(tape: &mut [u8], random: &mut Random) {
    if !tape.is_empty() {
        let place = random.below(tape.len());
        tape[place] ^= 1 << random.below(8);
    }
}

/// The offset of some whole command of one of these sorts.
pub fn some_command(tape: &[u8], sorts: &[u8], random: &mut Random) -> Option<usize> {
    let mut places = command_places(tape);
    places.retain(|place| sorts.contains(&tape[*place]));
    if places.is_empty() {
        return None;
    }
    Some(places[random.below(places.len())])
}

fn wrong_command(tape: &mut [u8], random: &mut Random) {
    if let Some(place) = some_command(tape, &[OPEN, TOKEN, CLOSE], random) {
        tape[place] = [0, 4, 255, OPEN, TOKEN, CLOSE, 16][random.below(7)];
    }
}

fn append(tape: &mut Vec<u8>, random: &mut Random) {
    match random.below(5) {
        0 => push_open(tape, kinds::number("File"), 0, 0),
        1 => push_token(tape, kinds::number("Comma"), 0, 0),
        2 => push_close(tape),
        3 => tape.push(random.next() as u8),
        _ => tape.extend([TOKEN, 0, 0]),
    }
}

fn drop_command(tape: &mut Vec<u8>, random: &mut Random) {
    if let Some(place) = some_command(tape, &[OPEN, TOKEN, CLOSE], random) {
        let length = if tape[place] == CLOSE { 1 } else { 11 };
        tape.drain(place..place + length);
    }
}

/// So many opens before the tape that it opens too many nodes, with closes after it or not.
fn too_deep(tape: &mut Vec<u8>, random: &mut Random) {
    let opens = MOST_OPEN - random.below(4);
    put_under(tape, opens);
    if random.percent(70) {
        (0..opens).for_each(|_| push_close(tape));
    }
}

/// So many opens before the tape.
pub fn put_under(tape: &mut Vec<u8>, opens: usize) {
    let mut deep = Vec::new();
    (0..opens).for_each(|_| push_open(&mut deep, kinds::number("File"), 0, 0));
    deep.append(tape);
    *tape = deep;
}

fn wrong_kind(tape: &mut [u8], random: &mut Random) {
    let Some(place) = some_command(tape, &[OPEN, TOKEN], random) else { return };
    let kind = match random.below(4) {
        0 => kinds::COUNT,
        1 => random.next() as u16,
        _ => kinds::NOT_CARRIED[random.below(13)].1,
    };
    put_kind(tape, place, kind);
}

fn wrong_span(tape: &mut [u8], text_length: u32, random: &mut Random) {
    let Some(place) = some_command(tape, &[OPEN, TOKEN], random) else { return };
    let span = match random.below(6) {
        0 => (text_length, text_length + 1),
        1 => (1, 0),
        2 => (0, u32::MAX),
        3 => (u32::MAX, u32::MAX),
        4 => (text_length + 1, text_length),
        _ => (random.next() as u32, random.next() as u32),
    };
    put_span(tape, place, span);
}
