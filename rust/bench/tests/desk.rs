//! The desk's program prints for a job what documents 01 and 02 say: target/bin/desk, which scripts/programs.sh writes, on standard input.

mod program;

use oracle::cases::{call, make, Class, Made};
use oracle::job;

const SEED: u64 = 30;
const JOBS: u64 = 2_000;
const JOBS_OF_CHARACTERS: u64 = 500;

/// What the program prints for the job.
fn printed(job: &[u8]) -> Vec<u8> {
    program::printed("desk", job)
}

#[test]
fn the_documents_job() {
    let job = [0x10, 4, 0x11, 1, 0x12, 1, 0, 0, 0, b'a', 1, 0, 0, 0, 0, 0, 0, 1, 0, 0, 0, 3];
    assert_eq!(printed(&job), b"a\n");
}

#[test]
fn fourteen_at_each_of_its_places() {
    let header = [0x10, 4, 0x11, 1, 0x12, 0, 0, 0, 0];
    for (job, place) in [(&header[..1], 0), (&header[..3], 2), (&header[..8], 4)] {
        assert_eq!(printed(job), format!("refused 14 at {place}\n").into_bytes());
    }
    assert_eq!(printed(&[0x10; 65_537]), b"refused 14 at 65536\n");
    assert_eq!(printed(&[0x11; 65_536]), b"refused 14 at 0\n");
}

#[test]
fn generated_jobs() {
    if !oracle::source::at_hand_for("generated_jobs") {
        return;
    }
    for index in 0..JOBS {
        let Made::Job(job) = make(SEED, Class::Jobs, index) else { panic!("the class makes jobs") };
        assert!(printed(&job) == job::printed(&job), "seed {SEED}, jobs, index {index}");
    }
}

#[test]
fn jobs_of_characters() {
    if !oracle::source::at_hand_for("jobs_of_characters") {
        return;
    }
    for class in [Class::Utf8, Class::Utf8Small, Class::Utf8Damaged] {
        for index in 0..JOBS_OF_CHARACTERS {
            let job = job::write(&call(SEED, class, index));
            assert!(printed(&job) == job::printed(&job), "seed {SEED}, {class:?}, index {index}");
        }
    }
}
