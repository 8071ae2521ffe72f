//! One report call held to the oracle: how many bytes it puts, every byte of the output space and of the working space, the tally, and the
//! margins around the three. The call is a parameter: the port's, or one that stands in for it.

use super::{about, pattern, Lent, MARGIN};
use oracle::cases::{make, Class, Made};
use oracle::job::BUFFER;
use oracle::report::{answer, called, claim, differ_as_masked, report, Called, ReportCase, Tally};
use std::sync::LazyLock;

/// The classes whose cases are books.
pub const CLASSES: [Class; 4] = [Class::Books, Class::BooksDamaged, Class::BooksMasked, Class::BooksLimits];

/// A report call: book, whether more follows (not 0), tally, working space and output space. It answers how many bytes it puts.
pub trait ReportCall: Fn(&[u8], u64, &mut [u64; 4], &mut [u8; BUFFER], &mut [u8]) -> usize {}

impl<F: Fn(&[u8], u64, &mut [u64; 4], &mut [u8; BUFFER], &mut [u8]) -> usize> ReportCall for F {}

/// What the tally holds before each call: numbers that no tally has, and that can't be raised.
const HELD: [u64; 4] = [u64::MAX, u64::MAX - 1, u64::MAX - 2, u64::MAX - 3];

/// What the working space holds before each call.
static WORK: LazyLock<Vec<u8>> = LazyLock::new(|| pattern(BUFFER));

/// The case of this seed, class and index on both sides; the error says what differs.
pub fn compare(seed: u64, class: Class, index: u64, port: &impl ReportCall) -> Result<(), String> {
    match make(seed, class, index) {
        Made::Book(book) => call(&book, port),
        Made::BookPair(books) => masked(&books, port),
        _ => panic!("{class:?} makes no books"),
    }
    .map_err(|what| format!("seed {seed}, class {class:?}, index {index}: {what}"))
}

/// The call in output spaces of the report's length, one less, five more and none; and as if more followed the book.
fn call(book: &[u8], port: &impl ReportCall) -> Result<(), String> {
    let expected = report(book, Tally::of(HELD));
    let mut case = lent(book);
    for length in about(expected.printed.len()) {
        case.space = pattern(length);
        same(&case, &called(&expected, &case.work, &case.space), port)?;
    }
    case.space = pattern(24);
    for more in [1, 1 << 63] {
        case.more = more;
        same(&case, &answer(&case), port)?;
    }
    Ok(())
}

/// The call with no output space.
fn lent(book: &[u8]) -> ReportCase {
    ReportCase { book: book.to_vec(), more: 0, tally: Tally::of(HELD), work: WORK.clone(), space: Vec::new() }
}

fn same(case: &ReportCase, expected: &Called, port: &impl ReportCall) -> Result<(), String> {
    let got = reported(case, port)?;
    let space = case.space.len();
    if got.put != expected.put {
        return Err(format!("{} bytes are put into a space of {space} instead of {}", got.put, expected.put));
    }
    if got.space != expected.space {
        return Err(format!("the space of {space} bytes afterwards"));
    }
    if got.tally != expected.tally {
        return Err(format!("the tally is {:?} instead of {:?}", got.tally, expected.tally));
    }
    if got.work != expected.work {
        return Err("the working space afterwards".to_string());
    }
    Ok(())
}

/// What the call puts, and what it was lent afterwards; the error is that a margin was touched.
fn reported(case: &ReportCase, port: &impl ReportCall) -> Result<Called, String> {
    let mut tally = Lent::new(&case.tally.numbers(), vec![7; MARGIN]);
    let mut work = Lent::new(&case.work, pattern(MARGIN));
    let mut space = Lent::new(&case.space, pattern(MARGIN));
    let tally_cells = tally.cells().try_into().expect("four numbers");
    let work_cells = work.cells().try_into().expect("as many bytes as the program's buffer has");
    let put = port(&case.book, case.more, tally_cells, work_cells, space.cells());
    let tally = tally.returned("numbers")?.try_into().expect("four numbers");
    Ok(Called { put, tally: Tally::of(tally), work: work.returned("bytes")?, space: space.returned("bytes")? })
}

/// Both books of a pair, which are the oracle's byte for byte; the rule's conditions and claim on these, and the claim on what the call puts.
fn masked([first, second]: &[Vec<u8>; 2], port: &impl ReportCall) -> Result<(), String> {
    if !differ_as_masked(first, second) {
        return Err("the books differ otherwise than the masking rule allows".to_string());
    }
    claim(first, second)?;
    call(first, port)?;
    call(second, port)?;
    let in_full = |book| reported(&ReportCase { space: WORK.clone(), ..lent(book) }, port);
    let [one, other] = [first, second].map(|book| in_full(book));
    let (one, other) = (one?, other?);
    if (one.put, one.tally, one.space) != (other.put, other.tally, other.space) {
        return Err("the reports of a pair".to_string());
    }
    Ok(())
}
