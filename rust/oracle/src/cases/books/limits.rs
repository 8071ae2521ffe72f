//! Books at the limits: of jobs, of bytes, of lengths, of layouts; each refusal of a job.

use super::super::limits::{chain, plain};
use super::{command_places, put_length, small_call, some_job};
use crate::answers::Case;
use crate::job::{self, BUFFER};
use crate::kinds;
use crate::random::Random;
use crate::report::{write, COMMAND, HEAD, MOST_BYTES, MOST_JOBS};
use crate::tape::{push_close, push_open, push_token};

/// The kinds of limit that the index goes round.
pub const ROUND: u64 = 32;

pub fn make(random: &mut Random, index: u64) -> Vec<u8> {
    match index % ROUND {
        0 => Vec::new(),
        1 => empty_jobs(1),
        2 => empty_jobs(MOST_JOBS - 1),
        3 => empty_jobs(MOST_JOBS),
        4 => empty_jobs(MOST_JOBS + 1),
        5 => [empty_jobs(MOST_JOBS + 1), vec![0]].concat(),
        6 => [empty_jobs(MOST_JOBS), vec![random.below(COMMAND.into()) as u8]].concat(),
        7 => [&empty_jobs(MOST_JOBS), &[COMMAND, 0, 0, 0, 0][..1 + random.below(HEAD - 1)]].concat(),
        8 => [empty_jobs(MOST_JOBS), vec![COMMAND, 1, 0, 0, 0]].concat(),
        9 => [vec![COMMAND + 1], empty_jobs(MOST_JOBS + 1)].concat(),
        10 => write(&[job_of(MOST_BYTES - HEAD)]),
        11 => write(&[job_of(MOST_BYTES + 1 - HEAD)]),
        12 => full(MOST_BYTES, random),
        13 => full(MOST_BYTES + 1, random),
        14 => full(MOST_BYTES + 2 + random.below(1_000), random),
        15 => vec![0; MOST_BYTES],
        16 => vec![0; MOST_BYTES + 1],
        17 => empty_jobs(MOST_BYTES / HEAD),
        18 => empty_jobs(MOST_BYTES / HEAD + 1),
        19 => passing_the_end(1, random),
        20 => passing_the_end(1 << 31, random),
        21 => wrapped_length(random),
        22 => write(&[Vec::new(), long_layout(BUFFER), some_job(random)]),
        23 => write(&[some_job(random), long_layout(BUFFER + 1), Vec::new()]),
        24 => write(&[many_lines(60_000), many_lines(1), many_lines(0)]),
        25 => every_refusal(),
        26 => write(&[job::write(&plain(Vec::new(), chain(1, 0))), Vec::new()]),
        // These five take far longer than all others.
        27 => short_jobs(MOST_JOBS - 1, random),
        28 => short_jobs(MOST_JOBS, random),
        29 => short_jobs(MOST_JOBS + 1, random),
        30 => write(&vec![long_layout(random.within(64_000, BUFFER)); 37]),
        _ => write(&[many_bytes(random), some_job(random)]),
    }
}

fn empty_jobs(count: usize) -> Vec<u8> {
    write(&vec![[]; count])
}

/// So many jobs of a few bytes each, all in a book's length.
fn short_jobs(count: usize, random: &mut Random) -> Vec<u8> {
    let most = MOST_BYTES / count - HEAD;
    let jobs = (0..count).map(|_| loop {
        let job = some_short_job(random);
        if job.len() <= most {
            return job;
        }
    });
    write(&jobs.collect::<Vec<_>>())
}

fn some_short_job(random: &mut Random) -> Vec<u8> {
    match random.below(4) {
        0 => Vec::new(),
        1 => some_job(random),
        _ => job::write(&small_call(random)),
    }
}

/// An accepted job of so many bytes: a text that is long, and a token over its first byte.
fn job_of(bytes: usize) -> Vec<u8> {
    let header_and_tape = job::write(&plain(Vec::new(), chain(1, 1))).len();
    job::write(&plain(vec![b'x'; bytes - header_and_tape], chain(1, 1)))
}

/// A book of so many bytes: a few jobs, and one as long as what is left.
fn full(bytes: usize, random: &mut Random) -> Vec<u8> {
    let book = write(&[some_job(random), some_job(random), Vec::new()]);
    let left = bytes.checked_sub(book.len() + HEAD + 100);
    left.map_or(full_of_one(bytes), |left| [book, full_of_one(left + HEAD + 100)].concat())
}

fn full_of_one(bytes: usize) -> Vec<u8> {
    write(&[job_of(bytes - HEAD)])
}

/// A book in which the length of one job passes the end by so much.
fn passing_the_end(by: usize, random: &mut Random) -> Vec<u8> {
    let mut book = write(&[some_job(random), some_job(random), some_job(random)]);
    let place = command_places(&book)[random.below(3)];
    let length = book.len() - place - HEAD + by;
    put_length(&mut book, place, length);
    book
}

/// A book in which the end of one job, in 32 bits, is in the book again.
fn wrapped_length(random: &mut Random) -> Vec<u8> {
    let mut book = write(&[some_job(random), some_job(random), some_job(random)]);
    let place = command_places(&book)[1 + random.below(2)];
    let length = u32::MAX as usize + 1 - random.below(place + HEAD) - 1;
    put_length(&mut book, place, length);
    book
}

/// A short job whose layout has so many bytes, 1,000 at least: words of a text, with a newline at the end.
fn long_layout(bytes: usize) -> Vec<u8> {
    let text = vec![b'x'; 1_000];
    let mut tape = Vec::new();
    push_open(&mut tape, kinds::number("QualifiedName"), 0, 0);
    let mut left = bytes - 1;
    while left > 0 {
        let length = left.min(text.len());
        push_token(&mut tape, kinds::number("Number"), 0, length as u32);
        left -= length;
    }
    push_close(&mut tape);
    job::write(&plain(text, tape))
}

/// A job whose layout has so many newlines, and one more at its end.
fn many_lines(newlines: usize) -> Vec<u8> {
    let text = [vec![b'\n'; newlines], b"x".to_vec()].concat();
    let mut tape = Vec::new();
    push_open(&mut tape, kinds::number("Error"), 0, text.len() as u32);
    push_close(&mut tape);
    job::write(&plain(text, tape))
}

/// A job whose layout has millions of bytes: many tokens over one long text.
fn many_bytes(random: &mut Random) -> Vec<u8> {
    let text = vec![b'x'; 20_000];
    let mut tape = Vec::new();
    push_open(&mut tape, kinds::number("ExpressionList"), 0, 0);
    (0..random.within(50, 600)).for_each(|_| push_token(&mut tape, kinds::number("Number"), 0, 20_000));
    push_close(&mut tape);
    job::write(&plain(text, tape))
}

/// A job for each refusal that a job of a book can meet, between accepted ones.
fn every_refusal() -> Vec<u8> {
    let word = |text: &[u8], kind: &str, start: u32, end: u32| {
        let mut tape = Vec::new();
        push_open(&mut tape, kinds::number("File"), 0, 0);
        push_token(&mut tape, kinds::number(kind), start, end);
        push_close(&mut tape);
        plain(text.to_vec(), tape)
    };
    let tape = |tape: &[u8]| plain(Vec::new(), tape.to_vec());
    let open = |kind: u16| {
        let mut tape = Vec::new();
        push_open(&mut tape, kind, 0, 0);
        tape
    };
    let calls = [
        word(b"a", "BareWord", 0, 1),
        Case { width: 17, ..tape(&[]) },
        Case { case: 2, ..tape(&[]) },
        word(b"a\xFF", "BareWord", 0, 1),
        tape(&[4]),
        tape(&open(1)[..3]),
        tape(&open(kinds::COUNT)),
        tape(&open(kinds::NOT_CARRIED[0].1)),
        word(b"", "BareWord", 0, 1),
        plain(b"a".to_vec(), chain(65, 1)),
        tape(&[3]),
        tape(&open(1)),
        word("é".as_bytes(), "StringToken", 0, 1),
        word("é".as_bytes(), "BareWord", 0, 2),
        word(b"a", "BareWord", 0, 1),
    ];
    let mut jobs: Vec<Vec<u8>> = calls.iter().map(job::write).collect();
    jobs.insert(10, long_layout(BUFFER + 1));
    let header = [0x10, 4, 0x11, 1, 0x12, 0, 0, 0, 0];
    jobs.extend([&header[..1], &header[..3], &header[..8], &[]].map(<[u8]>::to_vec));
    write(&jobs)
}
