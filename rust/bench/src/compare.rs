//! One call of the port held to the oracle: both numbers of its answer, and every byte of the output space and of the margins around it.

pub mod map;
pub mod report;

use crate::{layout, layout_map, word};
use oracle::answers::{accepted_tree, answer, formatted, Answer, Answered, Case};
use oracle::cases::{make, Class, Made};
use oracle::masking::{claim, Pair};
use oracle::words;

/// The classes whose cases are calls that the library has, or books for it.
pub const CLASSES: [Class; 20] = [
    Class::Parser,
    Class::Wild,
    Class::Damaged,
    Class::Masked,
    Class::Limits,
    Class::Small,
    Class::Utf8,
    Class::Utf8Small,
    Class::Utf8Damaged,
    Class::Utf8Masked,
    Class::Utf8Limits,
    Class::Words,
    Class::Map,
    Class::MapDamaged,
    Class::MapMasked,
    Class::MapLimits,
    Class::Books,
    Class::BooksDamaged,
    Class::BooksMasked,
    Class::BooksLimits,
];

/// The cells before and after a space that no call may touch.
const MARGIN: usize = 16;

/// The case of this seed, class and index on both sides; the error says what differs.
pub fn compare(seed: u64, class: Class, index: u64) -> Result<(), String> {
    if report::CLASSES.contains(&class) {
        return report::compare(seed, class, index, &crate::report);
    }
    let differs = |what| format!("seed {seed}, class {class:?}, index {index}: {what}");
    match make(seed, class, index) {
        Made::Call(case) => call(&case),
        Made::Pair(pair) => masked(&pair),
        Made::Word(bytes) => same_word(&bytes),
        Made::Job(_) => panic!("a job is no call"),
        Made::MapCall(case) => map::call(&case, &layout_map),
        Made::MapPair(pair) => map::masked(&pair, &layout_map),
        Made::Book(_) | Made::BookPair(_) => panic!("a book is no call"),
    }
    .map_err(differs)
}

/// The call in the case's own space and in spaces of L, L-1, L+5 and 0 bytes.
fn call(case: &Case) -> Result<(), String> {
    in_space(case)?;
    for length in about(needed_bytes(case)) {
        in_space(&Case { space: pattern(length), ..case.clone() })?;
    }
    Ok(())
}

/// The bytes that a call needs; a refused one gets a few.
fn needed_bytes(case: &Case) -> usize {
    formatted(case).map_or(5, |output| output.len())
}

/// The lengths of a space that are tried: as needed, one less, five more, none.
fn about(needed: usize) -> [usize; 4] {
    [needed, needed.saturating_sub(1), needed + 5, 0]
}

/// The port's answer for a word, which is the oracle's.
pub fn same_word(bytes: &[u8]) -> Result<(), String> {
    equal(&format!("the word \"{}\"", bytes.escape_ascii()), word(bytes), words::answer(bytes))
}

/// Bytes that no well-formed text has, and so no layout; each unlike its neighbours.
fn pattern(length: usize) -> Vec<u8> {
    let bytes = [0xC0, 0xC1, 0xF5, 0xF6, 0xF7, 0xF8, 0xF9, 0xFA, 0xFB, 0xFC, 0xFD, 0xFE, 0xFF];
    bytes.into_iter().cycle().take(length).collect()
}

fn in_space(case: &Case) -> Result<(), String> {
    let expected = answer(case);
    let got = answered(case)?;
    equal(&format!("laying out in {} bytes", case.space.len()), got.laid_out, expected.laid_out)?;
    if got.space != expected.space {
        return Err(format!("the space of {} bytes afterwards", case.space.len()));
    }
    Ok(())
}

/// What the port answers, and the space afterwards; the error is that a margin was touched.
pub fn answered(case: &Case) -> Result<Answered, String> {
    let mut space = Lent::new(&case.space, pattern(MARGIN));
    let laid_out = layout(&case.text, &case.tape, case.width, case.case, space.cells());
    space.returned("bytes").map(|space| Answered { laid_out, space })
}

/// A space that a call is lent, between two margins.
struct Lent<T> {
    memory: Vec<T>,
    margin: Vec<T>,
}

impl<T: Clone + PartialEq> Lent<T> {
    fn new(space: &[T], margin: Vec<T>) -> Lent<T> {
        Lent { memory: [&margin[..], space, &margin].concat(), margin }
    }

    /// The space without the margins.
    fn cells(&mut self) -> &mut [T] {
        let (start, end) = (self.margin.len(), self.memory.len() - self.margin.len());
        &mut self.memory[start..end]
    }

    /// The space afterwards; the error is that a margin was touched.
    fn returned(mut self, cells: &str) -> Result<Vec<T>, String> {
        let is_kept = self.memory.starts_with(&self.margin) && self.memory.ends_with(&self.margin);
        self.memory.truncate(self.memory.len() - self.margin.len());
        self.memory.drain(..self.margin.len());
        if is_kept {
            return Ok(self.memory);
        }
        Err(format!("the margins of a space of {} {cells}", self.memory.len()))
    }
}

fn equal(what: &str, got: Answer, expected: Answer) -> Result<(), String> {
    if got == expected {
        return Ok(());
    }
    Err(format!("{what} answers {got:?} instead of {expected:?}"))
}

/// Both calls of a pair, which are the oracle's byte for byte; the rule's claim on these, and on the port's own answers.
fn masked(pair: &Pair) -> Result<(), String> {
    claim(pair)?;
    let cases = [0, 1].map(|which| pair.case(which));
    for case in &cases {
        call(case)?;
    }
    let [first, second] = cases.map(|case| {
        let mut space = case.space.clone();
        (layout(&case.text, &case.tape, case.width, case.case, &mut space), space)
    });
    equal("the second of a pair", second.0, first.0)?;
    if accepted_tree(&pair.case(0)).is_err() && first.1 != second.1 {
        return Err("a refused pair wrote".to_string());
    }
    Ok(())
}
