//! Faults of a report call, each a change of what the oracle gives.

mod books;
mod lines;
mod spaces;

pub use books::BOOKS;
pub use lines::{LINES, NONE};
pub use spaces::SPACES;

use oracle::answers::Answer;
use oracle::job;
use oracle::report::{called, jobs, Called, ReportCase, Reported, Tally};

pub enum Fault {
    /// Another report; what becomes of it is right.
    Report(fn(&ReportCase) -> Reported),
    /// Another count of bytes put, or something else in what was lent.
    Given(fn(&ReportCase, &mut Called)),
}

impl Fault {
    pub fn change(&self, asked: &ReportCase, given: &mut Called) {
        match self {
            Fault::Given(change) => change(asked, given),
            Fault::Report(report) => *given = called(&report(asked), &asked.work, &asked.space),
        }
    }
}

/// The right report, for the books that a fault does not show in.
fn right(asked: &ReportCase) -> Reported {
    match asked.more {
        0 => oracle::report::report(&asked.book, asked.tally),
        _ => refused(asked, 18, 65_536),
    }
}

/// The report of a book that is refused so.
fn refused(asked: &ReportCase, number: u64, place: usize) -> Reported {
    let printed = format!("refused {number} at {place}\n").into_bytes();
    Reported { printed, tally: asked.tally, layouts: Vec::new() }
}

/// The layout of a job, or its refusal.
type Answered = Result<Vec<u8>, Answer>;

/// A job and its answer.
struct Known {
    job: Vec<u8>,
    answered: Answered,
}

/// The jobs of a book that is not refused, with their answers.
fn known(asked: &ReportCase) -> Option<Vec<Known>> {
    let jobs = jobs(&asked.book).ok().filter(|_| asked.more == 0)?;
    Some(jobs.into_iter().map(|job| Known { job: job.to_vec(), answered: job::layout(job) }).collect())
}

/// The layouts of the jobs that have one.
fn layouts(jobs: &[Known]) -> Vec<Vec<u8>> {
    jobs.iter().filter_map(|known| known.answered.clone().ok()).collect()
}

fn newlines(bytes: &[u8]) -> u64 {
    bytes.iter().filter(|byte| **byte == 10).count() as u64
}

/// The tally with one job more.
fn raised(tally: Tally, known: &Known) -> Tally {
    let Tally { jobs, refused, bytes, lines } = tally;
    match &known.answered {
        Ok(layout) => {
            let (more, newlines) = (layout.len() as u64, newlines(layout));
            Tally { jobs: jobs + 1, refused, bytes: bytes + more, lines: lines + newlines }
        }
        Err(_) => Tally { jobs: jobs + 1, refused: refused + 1, bytes, lines },
    }
}

fn line(number: u64, known: &Known) -> String {
    match &known.answered {
        Ok(layout) => format!("{number} bytes {} lines {}\n", layout.len(), newlines(layout)),
        Err(Answer { number: refusal, second }) => format!("{number} refused {refusal} at {second}\n"),
    }
}

fn total(tally: Tally) -> String {
    let Tally { jobs, refused, bytes, lines } = tally;
    format!("total jobs {jobs} refused {refused} bytes {bytes} lines {lines}\n")
}
