//! The desk's program: document 01's example, answer 14 with its places, and the buffers' limits.

mod common;

use common::{nested_files, plain, FILE};
use oracle::job::{printed, write, BUFFER};
use oracle::tape::{push_close, push_open, push_token};

/// Document 01's example: the text `a` under an Error node.
const EXAMPLE: [u8; 22] = [0x10, 4, 0x11, 1, 0x12, 1, 0, 0, 0, 0x61, 1, 0, 0, 0, 0, 0, 0, 1, 0, 0, 0, 3];

fn assert_prints(job: &[u8], expected: &str) {
    assert_eq!(printed(job).escape_ascii().to_string(), expected.as_bytes().escape_ascii().to_string());
}

/// A job of so many bytes: a long text, and a tape with a token over its first byte.
fn job_of(bytes: usize) -> Vec<u8> {
    let mut tape = Vec::new();
    push_open(&mut tape, FILE, 0, 0);
    push_token(&mut tape, FILE, 0, 1);
    push_close(&mut tape);
    let text = vec![b'x'; bytes - 9 - tape.len()];
    let job = write(&plain(&text, tape));
    assert_eq!(job.len(), bytes);
    job
}

#[test]
fn an_empty_job_is_14_at_0() {
    assert_prints(b"", "refused 14 at 0\n");
}

#[test]
fn a_job_above_65536_bytes_is_14_at_65536_whatever_it_holds() {
    assert_prints(&vec![0; BUFFER + 1], "refused 14 at 65536\n");
    assert_prints(&job_of(BUFFER + 1), "refused 14 at 65536\n");
}

#[test]
fn each_header_command_wrong_is_14_at_its_place() {
    for place in [0, 2, 4] {
        let mut job = EXAMPLE;
        job[place] ^= 1;
        assert_prints(&job, &format!("refused 14 at {place}\n"));
    }
}

#[test]
fn a_header_cut_short_is_14_at_the_command_that_is_cut() {
    for (length, place) in [(0, 0), (1, 0), (2, 2), (3, 2), (4, 4), (5, 4), (8, 4), (9, 4)] {
        assert_prints(&EXAMPLE[..length], &format!("refused 14 at {place}\n"));
    }
}

#[test]
fn a_text_longer_than_the_job_is_14_at_4() {
    for (byte, value) in [(5, 14), (8, 0x80)] {
        let mut job = EXAMPLE;
        job[byte] = value;
        assert_prints(&job, "refused 14 at 4\n");
    }
}

#[test]
fn a_text_that_takes_in_the_tape_leaves_an_empty_tape() {
    let mut job = EXAMPLE;
    job[5] = 13;
    assert_prints(&job, "refused 12 at 0\n");
}

#[test]
fn answer_14_precedes_1() {
    let mut job = EXAMPLE;
    job[1] = 17;
    assert_prints(&job, "refused 1 at 0\n");
    job[2] = 0;
    assert_prints(&job, "refused 14 at 2\n");
}

#[test]
fn refusals_of_the_call_are_printed_with_their_place() {
    assert_prints(&write(&plain(b"", nested_files(65))), "refused 11 at 704\n");
    assert_prints(&write(&plain(b"a\xFF", Vec::new())), "refused 4 at 1\n");
}

#[test]
fn the_example_prints_61_0a() {
    needs_source!();
    assert_eq!(printed(&EXAMPLE), [0x61, 0x0A]);
}

#[test]
fn a_job_of_65536_bytes_is_answered() {
    needs_source!();
    assert_prints(&job_of(BUFFER), "x\n");
}

#[test]
fn an_empty_layout_prints_nothing() {
    needs_source!();
    assert_prints(&write(&plain(b"", nested_files(1))), "");
}

#[test]
fn an_output_of_65536_bytes_is_printed_and_one_more_is_13() {
    needs_source!();
    let over = |length: u32| {
        let mut tape = Vec::new();
        push_open(&mut tape, FILE, 0, 0);
        push_token(&mut tape, FILE, 0, length);
        push_token(&mut tape, FILE, 0, 32_000);
        push_close(&mut tape);
        printed(&write(&plain(&[b'x'; 40_000], tape)))
    };
    assert_eq!(over(33_535).len(), BUFFER);
    assert_eq!(over(33_536), b"refused 13 at 65537\n");
}
