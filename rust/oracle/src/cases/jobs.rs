//! Jobs for the desk's program: good ones, and ones with a damaged header, a damaged call or too many bytes.

use super::{damaged, some_call};
use crate::answers::Case;
use crate::job::{write, BUFFER, HEADER};
use crate::random::Random;

pub fn make(random: &mut Random) -> Vec<u8> {
    match random.below(10) {
        0..=3 => write(&some_call(random)),
        4..=5 => damaged_call(random),
        6..=8 => damaged_header(random),
        _ => long(random),
    }
}

fn damaged_call(random: &mut Random) -> Vec<u8> {
    let mut case = some_call(random);
    damaged::damage(&mut case, random);
    write(&case)
}

/// The header's commands stand at these offsets.
const PLACES: [usize; 3] = [0, 2, 4];

pub fn damaged_header(random: &mut Random) -> Vec<u8> {
    let case = some_call(random);
    let mut job = write(&case);
    let place = PLACES[random.below(3)];
    match random.below(6) {
        0 => job[place] = random.next() as u8,
        1 => job[place] = HEADER[random.below(3)],
        2 => job.truncate(random.below(10)),
        3 => job.truncate(9 + random.below(case.text.len() + 1)),
        4 => drop(job.drain(place..(place + 2))),
        _ => lengthen_text(&mut job, &case, random),
    }
    job
}

/// Raises the text's length, so that it takes in the tape's first bytes or passes the job's end.
fn lengthen_text(job: &mut [u8], case: &Case, random: &mut Random) {
    let more = [1, case.tape.len(), case.tape.len() + 1, 1 << 31][random.below(4)];
    let length = (case.text.len() + more) as u32;
    job[5..9].copy_from_slice(&length.to_le_bytes());
}

/// A job of about as many bytes as the program takes: its text has letters appended that no token holds.
fn long(random: &mut Random) -> Vec<u8> {
    let mut case = some_call(random);
    let length = BUFFER - 1 + random.below(4);
    let short = length.saturating_sub(write(&case).len());
    case.text.extend(std::iter::repeat_n(b'x', short));
    write(&case)
}
