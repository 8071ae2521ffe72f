//! The report over a book of saved queries, as document 02 (E6) has it, and what it says of two masked books (E7).

use crate::answers::{accepted_tree, Answer};
use crate::job::{self, refusal_line};
use crate::masking::{breaches, Pair};

/// The most bytes and jobs of a book.
pub const MOST_BYTES: usize = 65_536;
pub const MOST_JOBS: usize = 256;

/// The command before each job.
pub const COMMAND: u8 = 0x20;

/// Bytes of the command and of its operand, the job's length.
pub const HEAD: usize = 5;

/// The running tally.
#[derive(Clone, Copy, Debug, Default, PartialEq)]
pub struct Tally {
    pub jobs: u64,
    pub refused: u64,
    pub bytes: u64,
    pub lines: u64,
}

/// What the report is over a book: the bytes printed, the tally afterwards, and the layouts that were made for it, in the jobs' order.
#[derive(Clone, Debug, PartialEq)]
pub struct Reported {
    pub printed: Vec<u8>,
    pub tally: Tally,
    pub layouts: Vec<Vec<u8>>,
}

/// The report over a book, lent this tally.
pub fn report(book: &[u8], tally: Tally) -> Reported {
    match jobs(book) {
        Ok(jobs) => over(&jobs),
        Err(refusal) => refused(refusal, tally),
    }
}

fn refused(refusal: Answer, tally: Tally) -> Reported {
    Reported { printed: refusal_line(refusal), tally, layouts: Vec::new() }
}

/// The refusal of a book that is too long.
const TOO_LONG: Answer = Answer { number: 18, second: MOST_BYTES as u64 };

/// The jobs of a book, or its refusal.
pub fn jobs(book: &[u8]) -> Result<Vec<&[u8]>, Answer> {
    if book.len() > MOST_BYTES {
        return Err(TOO_LONG);
    }
    let mut jobs = Vec::new();
    let mut rest = book;
    while !rest.is_empty() {
        let place = (book.len() - rest.len()) as u64;
        let (job, after) = first_job(rest).ok_or(Answer { number: 18, second: place })?;
        if jobs.len() == MOST_JOBS {
            return Err(Answer { number: 19, second: place });
        }
        jobs.push(job);
        rest = after;
    }
    Ok(jobs)
}

/// The job of the command at the front, and what follows it; none if the command is wrong or cut short.
pub fn first_job(book: &[u8]) -> Option<(&[u8], &[u8])> {
    match book {
        [COMMAND, a, b, c, d, rest @ ..] => rest.split_at_checked(u32::from_le_bytes([*a, *b, *c, *d]) as usize),
        _ => None,
    }
}

/// The book of these jobs, which may be more than a book has room for.
pub fn write<T: AsRef<[u8]>>(jobs: &[T]) -> Vec<u8> {
    let command = |job: &[u8]| [&[COMMAND][..], &(job.len() as u32).to_le_bytes(), job].concat();
    jobs.iter().flat_map(|job| command(job.as_ref())).collect()
}

/// The lines for these jobs and the last line, with a tally from zeros.
fn over(jobs: &[&[u8]]) -> Reported {
    let mut report = Reported { printed: Vec::new(), tally: Tally::default(), layouts: Vec::new() };
    for job in jobs {
        report.add(job::layout(job));
    }
    report.printed.extend(report.tally.line().bytes());
    report
}

impl Reported {
    /// Raises the tally by a job, and prints its line.
    fn add(&mut self, answered: Result<Vec<u8>, Answer>) {
        self.tally.jobs += 1;
        let number = self.tally.jobs;
        let line = match answered {
            Ok(layout) => {
                let bytes = layout.len() as u64;
                let lines = layout.iter().filter(|byte| **byte == 10).count() as u64;
                self.tally.bytes += bytes;
                self.tally.lines += lines;
                self.layouts.push(layout);
                format!("{number} bytes {bytes} lines {lines}\n")
            }
            Err(refusal) => {
                self.tally.refused += 1;
                format!("{number} refused {} at {}\n", refusal.number, refusal.second)
            }
        };
        self.printed.extend(line.bytes());
    }
}

impl Tally {
    /// The tally of these numbers, as they stand in memory.
    pub fn of([jobs, refused, bytes, lines]: [u64; 4]) -> Tally {
        Tally { jobs, refused, bytes, lines }
    }

    pub fn numbers(self) -> [u64; 4] {
        [self.jobs, self.refused, self.bytes, self.lines]
    }

    fn line(&self) -> String {
        let Tally { jobs, refused, bytes, lines } = self;
        format!("total jobs {jobs} refused {refused} bytes {bytes} lines {lines}\n")
    }
}

/// The library's call: a book, whether more follows it (not 0), and what is lent: a tally, the space in which jobs are laid out, the output
/// space.
#[derive(Clone, Debug, PartialEq)]
pub struct ReportCase {
    pub book: Vec<u8>,
    pub more: u64,
    pub tally: Tally,
    pub work: Vec<u8>,
    pub space: Vec<u8>,
}

/// How many bytes of the report the call puts, and what it was lent afterwards.
#[derive(Clone, Debug, PartialEq)]
pub struct Called {
    pub put: usize,
    pub tally: Tally,
    pub work: Vec<u8>,
    pub space: Vec<u8>,
}

/// The library's call. A book that more follows is too long.
pub fn answer(case: &ReportCase) -> Called {
    let reported = match case.more {
        0 => report(&case.book, case.tally),
        _ => refused(TOO_LONG, case.tally),
    };
    called(&reported, &case.work, &case.space)
}

/// What the call leaves of a report: as much as there is room for, and each layout over the front of the one before it.
pub fn called(reported: &Reported, work: &[u8], space: &[u8]) -> Called {
    let (mut work, mut space) = (work.to_vec(), space.to_vec());
    for layout in &reported.layouts {
        work[..layout.len()].copy_from_slice(layout);
    }
    let put = reported.printed.len().min(space.len());
    space[..put].copy_from_slice(&reported.printed[..put]);
    Called { put, tally: reported.tally, work, space }
}

/// Whether two books differ only as the masking rule allows: their commands and lengths are alike, and each two jobs are alike or masked.
pub fn differ_as_masked(first: &[u8], second: &[u8]) -> bool {
    let (mut first, mut second) = (first, second);
    while let (Some((one, after_one)), Some((other, after_other))) = (first_job(first), first_job(second)) {
        if one != other && !are_masked(one, other) {
            return false;
        }
        (first, second) = (after_one, after_other);
    }
    first == second
}

/// Whether two jobs have the same header and tape, which are accepted, and texts under the masking rule.
fn are_masked(one: &[u8], other: &[u8]) -> bool {
    let (Ok(first), Ok(second)) = (job::read(one), job::read(other)) else { return false };
    let is_alike = (first.width, first.case, &first.tape) == (second.width, second.case, &second.tape);
    let is_accepted = accepted_tree(&first).is_ok() && accepted_tree(&second).is_ok();
    let texts = [first.text, second.text];
    let pair = Pair { texts, tape: first.tape, width: first.width, case: first.case, space: first.space };
    is_alike && is_accepted && breaches(&pair).is_empty()
}

/// The claim of E7 about two books; the error says what does not hold.
pub fn claim(first: &[u8], second: &[u8]) -> Result<(), String> {
    let [one, other] = [first, second].map(|book| report(book, Tally::default()));
    if (&one.printed, one.tally) == (&other.printed, other.tally) {
        return Ok(());
    }
    Err(format!("reports \"{}\" and \"{}\"", one.printed.escape_ascii(), other.printed.escape_ascii()))
}
