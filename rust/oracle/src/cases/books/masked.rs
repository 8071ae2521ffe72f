//! Pairs of books under the masking rule: some jobs masked at once, some unchanged, some refused; now and then both books are refused alike.

use super::super::limits::plain;
use super::super::map::masked::pair;
use super::{append, some_job};
use crate::answers::accepted_tree;
use crate::job;
use crate::kinds;
use crate::random::Random;
use crate::report::{write, MOST_BYTES, MOST_JOBS};
use crate::tape::{push_close, push_open, push_token};

pub fn make(random: &mut Random) -> [Vec<u8>; 2] {
    let count = [1, 2, 2, 3, 3, 4, 4, 5, 7, 20][random.below(10)];
    let jobs: Vec<[Vec<u8>; 2]> = (0..count).map(|_| two_jobs(random)).collect();
    let mut books = [0, 1].map(|which| write(&jobs.iter().map(|pair| &pair[which]).collect::<Vec<_>>()));
    if random.percent(10) {
        let fault = fault(books[0].len(), count, random);
        books.iter_mut().for_each(|book| book.extend(&fault));
    }
    books
}

/// A job and what becomes of it.
fn two_jobs(random: &mut Random) -> [Vec<u8>; 2] {
    match random.below(20) {
        0..=5 => unchanged(random),
        6 => long_layouts(random),
        _ => masked(random),
    }
}

fn unchanged(random: &mut Random) -> [Vec<u8>; 2] {
    let job = some_job(random);
    [job.clone(), job]
}

/// A pair of the classes that mask, whose texts differ if its call is accepted.
fn masked(random: &mut Random) -> [Vec<u8>; 2] {
    let mut pair = pair(random);
    if accepted_tree(&pair.case(0)).is_err() {
        pair.texts[1] = pair.texts[0].clone();
    }
    [0, 1].map(|which| job::write(&pair.case(which)))
}

/// Two jobs with a layout about as long as the program's buffer, of one quoted text over and over: where it is longer, both are refused with 13.
fn long_layouts(random: &mut Random) -> [Vec<u8>; 2] {
    const QUOTED: usize = 1_000;
    let mut tape = Vec::new();
    push_open(&mut tape, kinds::number("QualifiedName"), 0, 0);
    let count = random.within(62, 69);
    (0..count).for_each(|_| push_token(&mut tape, kinds::number("StringToken"), 0, QUOTED as u32));
    push_close(&mut tape);
    [0, 1].map(|_| {
        let inner = (2..QUOTED).map(|_| b' ' + random.below(95) as u8);
        let text = [b'\''].into_iter().chain(inner).chain([b'\'']).collect();
        job::write(&plain(text, tape.clone()))
    })
}

/// Bytes for the end of a book of this length and count of jobs, by which it is refused.
fn fault(length: usize, count: usize, random: &mut Random) -> Vec<u8> {
    match random.below(10) {
        0 => vec![0; (MOST_BYTES + 1).saturating_sub(length)],
        1 => write(&vec![[]; MOST_JOBS + 1 - count]),
        _ => {
            let mut bytes = Vec::new();
            append(&mut bytes, random);
            bytes
        }
    }
}
