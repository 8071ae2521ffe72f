//! The desk's stored jobs through the crate: the course sheet A to L, the refusals, and damaged calls.

mod common;

use qdesk::{layout, Case, Settings, TapeBuilder, TapeError};
use std::fs;
use std::path::PathBuf;

/// The output space of the desk's program.
const SPACE: usize = 65_536;

/// What a job holds.
struct Job<'a> {
    settings: Settings,
    text: &'a [u8],
    tape: &'a [u8],
}

/// A stored job: its name, its bytes, and what the desk's program prints for it.
struct Stored {
    name: String,
    job: Vec<u8>,
    printed: Vec<u8>,
}

fn stored() -> Vec<Stored> {
    let folder = PathBuf::from(env!("CARGO_MANIFEST_DIR")).join("../../crates/desk/runs");
    let files = fs::read_dir(folder).expect("the folder of the stored jobs").map(|entry| entry.unwrap().path());
    let jobs = files.filter(|file| file.extension().is_some_and(|extension| extension == "job"));
    jobs.map(|file| Stored {
        name: file.file_stem().unwrap().to_str().unwrap().to_string(),
        job: fs::read(&file).unwrap(),
        printed: fs::read(file.with_extension("out")).unwrap(),
    })
    .collect()
}

/// The job's parts; none where the program itself refuses it (14).
fn parts(job: &[u8]) -> Option<Job<'_>> {
    if job.len() > SPACE {
        return None;
    }
    let [0x10, width, 0x11, case, 0x12, a, b, c, d, rest @ ..] = job else { return None };
    let length = u32::from_le_bytes([*a, *b, *c, *d]) as usize;
    let (text, tape) = rest.split_at_checked(length)?;
    Some(Job { settings: Settings { indent_width: u64::from(*width), case: Case(u64::from(*case)) }, text, tape })
}

/// What the program prints for the job, worked out through the crate.
fn printed(job: &Job) -> Vec<u8> {
    let mut space = vec![0; SPACE];
    match layout(job.text, job.tape, job.settings, &mut space) {
        Ok(length) => space[..length].to_vec(),
        Err(error) => format!("refused {} at {}\n", error.number(), error.place()).into_bytes(),
    }
}

#[test]
fn every_stored_job_is_answered_as_stored() {
    for stored in stored() {
        match parts(&stored.job) {
            Some(job) => assert!(printed(&job) == stored.printed, "{}", stored.name),
            None => assert!(stored.printed.starts_with(b"refused 14 at "), "{}", stored.name),
        }
    }
}

#[test]
fn the_stored_jobs_hold_the_whole_course_sheet() {
    let stored = stored();
    for letter in 'a'..='l' {
        let name = format!("sheet-{letter}");
        assert!(stored.iter().any(|stored| stored.name.starts_with(&name)), "{name}");
    }
}

/// The accepted tape again, spelt by the builder.
fn spelt(mut tape: &[u8]) -> Result<Vec<u8>, TapeError> {
    let mut builder = TapeBuilder::new();
    while let [command, rest @ ..] = tape {
        if *command == 3 {
            builder.close()?;
            tape = rest;
            continue;
        }
        let (operands, rest) = rest.split_first_chunk::<10>().expect("an accepted tape");
        let [k, l, a, b, c, d, e, f, g, h] = *operands;
        let kind = u16::from_le_bytes([k, l]);
        let span = u32::from_le_bytes([a, b, c, d])..u32::from_le_bytes([e, f, g, h]);
        match command {
            1 => builder.open(kind, span)?,
            _ => builder.token(kind, span)?,
        };
        tape = rest;
    }
    builder.finish()
}

#[test]
fn the_builder_spells_the_tapes_of_the_course_sheet() {
    for stored in stored().iter().filter(|stored| stored.name.starts_with("sheet-")) {
        let job = parts(&stored.job).expect("a good job");
        assert_eq!(spelt(job.tape).as_deref(), Ok(job.tape), "{}", stored.name);
    }
}

#[test]
fn the_example_is_the_course_sheets_b() {
    let stored = stored().into_iter().find(|stored| stored.name == "sheet-b").expect("sheet B");
    let job = parts(&stored.job).expect("a good job");
    assert_eq!(job.text, common::example::TEXT.as_bytes());
    assert_eq!(job.tape, common::example::tape().unwrap());
    assert_eq!(stored.printed, common::LAID_OUT);
}
