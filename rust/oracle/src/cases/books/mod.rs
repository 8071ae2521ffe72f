//! Books of saved queries: jobs of the other classes, refused ones among them; and books with faults.

pub mod limits;
pub mod masked;

use super::{damaged as faults, jobs, query, small, utf8, wild};
use crate::answers::Case;
use crate::job;
use crate::random::Random;
use crate::report::{first_job, write, COMMAND, HEAD};

/// A book of a few jobs, which the walk accepts.
pub fn make(random: &mut Random) -> Vec<u8> {
    write(&some_jobs(random))
}

fn some_jobs(random: &mut Random) -> Vec<Vec<u8>> {
    let count = [0, 1, 1, 2, 2, 3, 3, 4, 5, 7][random.below(10)];
    (0..count).map(|_| some_job(random)).collect()
}

/// A job, most often a short one: accepted, refused by the call, refused as a job, or of no byte.
fn some_job(random: &mut Random) -> Vec<u8> {
    match random.below(20) {
        0..=8 => job::write(&small_call(random)),
        9..=10 => job::write(&query::make(random)),
        11 => job::write(&wild::make(random)),
        12 => job::write(&utf8::make(random)),
        13..=14 => job::write(&damaged_call(random)),
        15 => job::write(&utf8::damaged::make(random)),
        16..=18 => jobs::damaged_header(random),
        _ => Vec::new(),
    }
}

fn small_call(random: &mut Random) -> Case {
    let index = random.next();
    match random.percent(70) {
        true => small::make(random, index),
        false => utf8::small::make(random, index),
    }
}

fn damaged_call(random: &mut Random) -> Case {
    let mut case = small_call(random);
    faults::damage(&mut case, random);
    case
}

/// A book with one to three faults, a few of which leave it as it is.
pub fn damaged(random: &mut Random) -> Vec<u8> {
    let mut book = make(random);
    for _ in 0..[1, 1, 1, 2, 3][random.below(5)] {
        damage(&mut book, random);
    }
    book
}

fn damage(book: &mut Vec<u8>, random: &mut Random) {
    let places = command_places(book);
    if places.is_empty() {
        return append(book, random);
    }
    let place = places[random.below(places.len())];
    match random.below(8) {
        0 => book[place] = random.next() as u8,
        1 => book[place] = COMMAND ^ 1 << random.below(8),
        2 => book.truncate(random.below(book.len() + 1)),
        3 => book.truncate(place + random.below(HEAD)),
        4..=5 => wrong_length(book, place, random),
        6 => drop(book.drain(place..place + 1 + random.below(HEAD))),
        _ => append(book, random),
    }
}

/// The offsets of the whole commands from the book's start.
pub fn command_places(book: &[u8]) -> Vec<usize> {
    let mut places = Vec::new();
    let mut rest = book;
    while let Some((_, after)) = first_job(rest) {
        places.push(book.len() - rest.len());
        rest = after;
    }
    places
}

/// Bytes after the last job: a command that is cut, one that is wrong, or any.
fn append(book: &mut Vec<u8>, random: &mut Random) {
    match random.below(4) {
        0 => book.extend(&[COMMAND, 0, 0, 0, 0][..1 + random.below(HEAD)]),
        1 => book.extend([COMMAND, 1, 0, 0, 0]),
        2 => book.extend([COMMAND + 1, 0, 0, 0, 0]),
        _ => book.push(random.next() as u8),
    }
}

/// Another length for a job: one that passes the book's end, or cuts the job or takes in what follows it.
fn wrong_length(book: &mut [u8], place: usize, random: &mut Random) {
    let (own, rest) = (length_at(book, place), book.len() - place - HEAD);
    let lengths = [rest, rest + 1, own + 1, own.saturating_sub(1), 1 << 31, u32::MAX as usize, u32::MAX as usize - 4];
    put_length(book, place, lengths[random.below(lengths.len())]);
}

fn length_at(book: &[u8], place: usize) -> usize {
    let (job, _) = first_job(&book[place..]).expect("a whole command");
    job.len()
}

/// Gives the command at this offset another length.
pub fn put_length(book: &mut [u8], place: usize, length: usize) {
    book[place + 1..place + HEAD].copy_from_slice(&(length as u32).to_le_bytes());
}
