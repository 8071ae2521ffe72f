//! The report over a book of saved queries.

use crate::error::Error;
use crate::ffi::{self, Answer};

/// Bytes that a book may have.
pub const MOST_BOOK: usize = 65_536;

/// Jobs that a book may have.
pub const MOST_JOBS: usize = 256;

/// Bytes that every report fits in: a line for a job has at most 39, the last one 57.
pub const MOST_REPORT: usize = 16_384;

/// What a report adds up.
#[derive(Clone, Copy, Debug, Default, PartialEq, Eq)]
pub struct Tally {
    /// All jobs.
    pub jobs: u64,
    /// The jobs that are refused.
    pub refused: u64,
    /// The bytes of all layouts.
    pub bytes: u64,
    /// The newlines of all layouts.
    pub lines: u64,
}

/// The report over a book: a line for each job, `N bytes B lines L` or `N refused R at P`, and the last line
/// `total jobs J refused K bytes S lines T`. Each job is answered as the desk's program answers it: 14 is a header that is not whole, and 13 a
/// layout above 65,536 bytes.
///
/// The tally is set to zeros, whatever it held, and raised for each job, so that it holds the numbers of the last line. A refused book
/// leaves it as it was.
///
/// ```
/// use qdesk::{book, job, report, Kind, Refusal, Tally, TapeBuilder};
///
/// let mut tape = TapeBuilder::new();
/// tape.open(Kind::ColumnReference, 0..4)?.token(Kind::BareWord, 0..4)?.close()?;
/// let name = job(b"name", &tape.finish()?, 4, 1);
/// let close_alone = job(b"", &[3], 4, 1);
///
/// let mut tally = Tally::default();
/// let lines = report(&book(&[&name, &close_alone, &name]), &mut tally)?;
/// assert_eq!(lines, "1 bytes 5 lines 1\n2 refused 12 at 0\n3 bytes 5 lines 1\ntotal jobs 3 refused 1 bytes 10 lines 2\n");
/// assert_eq!(tally, Tally { jobs: 3, refused: 1, bytes: 10, lines: 2 });
///
/// let error = report(b"\x20\x00", &mut tally).unwrap_err();
/// assert_eq!((error.refusal(), error.place()), (Refusal::BookCommand, 0));
/// assert_eq!(tally.jobs, 3);
/// # Ok::<(), qdesk::Error>(())
/// ```
///
/// Whatever is masked inside the quotes of the jobs, as [`layout`](crate::layout) lets it be masked, the report is the same. What is said of
/// [`layout_to_vec`](crate::layout_to_vec) about tapes from strangers holds for each job.
///
/// # Errors
///
/// Refusals 18 and 19.
pub fn report(book: &[u8], tally: &mut Tally) -> Result<String, Error> {
    let mut numbers = [tally.jobs, tally.refused, tally.bytes, tally.lines];
    let (mut work, mut out) = (vec![0; ffi::WORK], vec![0; MOST_REPORT]);
    let work = work.as_mut_slice().try_into().expect("as many bytes as are asked for");
    let put = ffi::report(book, 0, &mut numbers, work, &mut out);
    let [jobs, refused, bytes, lines] = numbers;
    *tally = Tally { jobs, refused, bytes, lines };
    out.truncate(put);
    let report = String::from_utf8(out).expect("a report is ASCII");
    refusal(&report).map_or(Ok(report), |answer| Err(Error::of(answer)))
}

/// The refusal that the line tells, if it is one: a report begins with a number or the word `total`.
fn refusal(line: &str) -> Option<Answer> {
    let (number, place) = line.strip_prefix("refused ")?.trim_end().split_once(" at ")?;
    Some(Answer { number: number.parse().ok()?, value: place.parse().ok()? })
}

/// A job as the desk's program reads it: the settings, the text and the tape in a row. Wrong settings are refused when it is answered.
///
/// # Panics
///
/// The text's length fits 4 bytes, or the call panics.
pub fn job(text: &[u8], tape: &[u8], indent_width: u8, case: u8) -> Vec<u8> {
    let length = length(text);
    [&[0x10, indent_width, 0x11, case, 0x12], &length[..], text, tape].concat()
}

/// A book of these jobs. Where it is too long or they are too many, [`report`] refuses it.
///
/// # Panics
///
/// Each job's length fits 4 bytes, or the call panics.
pub fn book<T: AsRef<[u8]>>(jobs: &[T]) -> Vec<u8> {
    let command = |job: &[u8]| [&[0x20], &length(job)[..], job].concat();
    jobs.iter().flat_map(|job| command(job.as_ref())).collect()
}

/// A length in 4 bytes, low byte first.
fn length(bytes: &[u8]) -> [u8; 4] {
    u32::try_from(bytes.len()).expect("a length of at most 4,294,967,295").to_le_bytes()
}
