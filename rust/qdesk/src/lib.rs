//! Lays out a ClickHouse query, one clause to a line, from its text and its syntax tree: safe Rust calls of the proved library
//! libqdesk.a.
//!
//! The tree comes as a *tape*, a row of commands; [`TapeBuilder`] spells one. [`layout`] writes the layout into a lent space, or says how
//! long one is needed, [`layout_to_vec`] brings the space itself, and [`layout_to_string`] does so from a `&str` to a `String`.
//! [`needed_length`] is the length alone. [`word`] tells keywords, value words (TRUE, FALSE, NULL) and all other words apart. [`report`]
//! tells of each query of a [`book`] how long its layout is.
//!
//! ```
//! use qdesk::{layout_to_string, Case, Kind, Settings, TapeBuilder};
//!
//! let mut tape = TapeBuilder::new();
//! tape.open(Kind::BinaryExpression, 0..3)?;
//! tape.open(Kind::ColumnReference, 0..1)?.token(Kind::BareWord, 0..1)?.close()?;
//! tape.token(Kind::Equals, 1..2)?.token(Kind::Number, 2..3)?.close()?;
//!
//! let settings = Settings { indent_width: 4, case: Case::UPPER };
//! assert_eq!(layout_to_string("a=1", &tape.finish()?, settings)?, "a = 1\n");
//! # Ok::<(), qdesk::Error>(())
//! ```
//!
//! [`layout_map`] and [`layout_map_to_vec`] lay out, and say of every token on which line and in which column it stands;
//! the first of them uses no heap.
//!
//! The text is UTF-8, and words outside of quotes are ASCII. All offsets and lengths count bytes.
//!
//! Any bytes and any numbers may be passed: each call has one answer, for a layout a length or a refusal ([`Error`]), and which one is
//! proved. The calls keep no state, so that any number of threads may make them at once; [`needed_length`], [`layout`] and [`word`] use no
//! heap. Only a library of another version than this crate could answer with a number that is unknown here, and the call would end in a
//! panic that says so.

#![deny(unsafe_code)]
#![warn(missing_docs)]

mod command;
mod error;
#[allow(unsafe_code)]
mod ffi;
mod kind;
mod map;
mod report;
mod tape;
mod word;

pub use command::{command_at, commands, span_bytes, Command, Operands};
pub use error::{Error, Refusal};
pub use kind::Kind;
pub use map::{layout_map, layout_map_to_vec, Mapped, Spot};
pub use report::{book, job, report, Tally, MOST_BOOK, MOST_JOBS, MOST_REPORT};
pub use tape::{TapeBuilder, TapeError, TapeFault, MOST_BYTES, MOST_OPEN};
pub use word::{word, Word};

/// The settings of a layout. Both are always the caller's: there is no default.
///
/// Both are plain 64-bit numbers, as the library takes them, and it is the library that refuses the wrong ones (1 and 2). A narrower type
/// would hide two proved refusals behind checks of this crate that nobody proved.
#[derive(Clone, Copy, Debug, PartialEq, Eq)]
pub struct Settings {
    /// Blanks for each level of indent, 0 to 16.
    pub indent_width: u64,
    /// The case of keywords.
    pub case: Case,
}

/// The case in which keywords are written: [`Case::LOWER`] or [`Case::UPPER`]; any other number is refused (2).
#[derive(Clone, Copy, Debug, PartialEq, Eq)]
pub struct Case(pub u64);

impl Case {
    /// Small letters.
    pub const LOWER: Case = Case(0);
    /// Capitals.
    pub const UPPER: Case = Case(1);
}

/// Writes the layout to the front of `out` and says how long it is. Later bytes of `out` stay as they were; so do all on a refusal.
///
/// ```
/// use qdesk::{layout, Case, Kind, Refusal, Settings, TapeBuilder};
///
/// let mut tape = TapeBuilder::new();
/// tape.open(Kind::ColumnReference, 0..4)?.token(Kind::BareWord, 0..4)?.close()?;
/// let tape = tape.finish()?;
/// let settings = Settings { indent_width: 4, case: Case::UPPER };
///
/// let mut out = *b"........";
/// assert_eq!(layout(b"name", &tape, settings, &mut out)?, 5);
/// assert_eq!(&out, b"name\n...");
///
/// let error = layout(b"name", &tape, settings, &mut out[..4]).unwrap_err();
/// assert_eq!((error.refusal(), error.place()), (Refusal::SpaceTooShort, 5));
/// # Ok::<(), qdesk::Error>(())
/// ```
///
/// On one input, the length of an accepted layout and the one that [`Refusal::SpaceTooShort`] names are the same, whatever the space.
///
/// # Errors
///
/// Refusals 1 to 13, 15 and 16.
pub fn layout(text: &[u8], tape: &[u8], settings: Settings, out: &mut [u8]) -> Result<usize, Error> {
    let answer = ffi::layout(text, tape, settings.indent_width, settings.case.0, out);
    match answer.number {
        0 => Ok(in_memory(answer.value)),
        _ => Err(Error::of(answer)),
    }
}

/// The length of the layout in bytes, by a call of [`layout`] with no space.
///
/// ```
/// use qdesk::{needed_length, Case, Kind, Settings, TapeBuilder};
///
/// let mut tape = TapeBuilder::new();
/// tape.open(Kind::ColumnReference, 0..4)?.token(Kind::BareWord, 0..4)?.close()?;
/// assert_eq!(needed_length(b"name", &tape.finish()?, Settings { indent_width: 4, case: Case::LOWER })?, 5);
/// # Ok::<(), qdesk::Error>(())
/// ```
///
/// # Errors
///
/// Refusals 1 to 12, 15 and 16.
pub fn needed_length(text: &[u8], tape: &[u8], settings: Settings) -> Result<usize, Error> {
    layout(text, tape, settings, &mut []).or_else(needed)
}

/// The length that a space too short is refused with; any other refusal stays.
fn needed(error: Error) -> Result<usize, Error> {
    match error.refusal() {
        Refusal::SpaceTooShort => Ok(in_memory(error.place())),
        _ => Err(error),
    }
}

fn in_memory(length: u64) -> usize {
    usize::try_from(length).expect("a length fits 64 bits, which this machine has")
}

/// The layout in a vector of its length, by one call of [`layout`] in a space of twice the text's length and 64 bytes, or by a second one where
/// the layout is longer.
///
/// # Tapes from strangers
///
/// A call takes time in proportion to the lengths of text and tape where tokens do not overlap, as a parser's never do. Where they do,
/// the lengths of the tokens and of the nodes copied as typed add up: with 23,800 tokens over the same 262,144 blanks the length alone takes
/// some 4 seconds, over as many letters it asks for 6 GB; and indents can ask for gigabytes. Who takes tapes from strangers looks at two
/// numbers first:
///
/// ```
/// use qdesk::{layout, needed_length, span_bytes, Case, Settings, MOST_OPEN};
///
/// /// The layout, if its tape is a tree that a parser could have made and it is short enough.
/// fn guarded(text: &[u8], tape: &[u8], settings: Settings, most: usize) -> Option<Vec<u8>> {
///     // Where siblings do not overlap, the spans of each of at most 64 levels, and those of the tokens, are at most the text.
///     if span_bytes(tape) > (MOST_OPEN as u64 + 1) * text.len() as u64 {
///         return None;
///     }
///     let length = needed_length(text, tape, settings).ok().filter(|length| *length <= most)?;
///     let mut out = vec![0; length];
///     layout(text, tape, settings, &mut out).ok()?;
///     Some(out)
/// }
/// # use qdesk::{Kind, TapeBuilder};
/// # let settings = Settings { indent_width: 4, case: Case::UPPER };
/// # let tape = |tokens: usize| {
/// #     let mut tape = TapeBuilder::new();
/// #     tape.open(Kind::ColumnReference, 0..262_144)?;
/// #     for _ in 0..tokens {
/// #         tape.token(Kind::BareWord, 0..262_144)?;
/// #     }
/// #     tape.close()?;
/// #     tape.finish()
/// # };
/// # assert_eq!(guarded(&[b'a'; 262_144], &tape(1)?, settings, 1_000_000).unwrap().len(), 262_145);
/// # assert_eq!(guarded(&[b'a'; 262_144], &tape(1)?, settings, 262_144), None);
/// # assert_eq!(guarded(&[b' '; 262_144], &tape(23_800)?, settings, 1_000_000), None);
/// # Ok::<(), qdesk::Error>(())
/// ```
///
/// # Errors
///
/// Refusals 1 to 12, 15 and 16.
pub fn layout_to_vec(text: &[u8], tape: &[u8], settings: Settings) -> Result<Vec<u8>, Error> {
    to_vec(text, |out| layout(text, tape, settings, out))
}

/// What a call writes to the space that it is lent, in a vector of that length.
fn to_vec(text: &[u8], mut call: impl FnMut(&mut [u8]) -> Result<usize, Error>) -> Result<Vec<u8>, Error> {
    // A text that is too long is refused (3) and needs no space.
    let mut out = vec![0; 2 * text.len().min(MOST_BYTES) + 64];
    let mut length = call(&mut out).or_else(needed)?;
    if length > out.len() {
        out = vec![0; length];
        length = call(&mut out)?;
    }
    out.truncate(length);
    out.shrink_to_fit();
    Ok(out)
}

/// The layout of a `&str`, as a `String` of its length.
///
/// ```
/// use qdesk::{layout_to_string, Case, Kind, Refusal, Settings, TapeBuilder};
///
/// let text = "select `Größe`,`温度`";
/// let mut tape = TapeBuilder::new();
/// tape.open(Kind::SelectClause, 0..25)?.token(Kind::BareWord, 0..6)?;
/// tape.open(Kind::ColumnList, 7..25)?;
/// tape.token(Kind::QuotedIdentifier, 7..16)?.token(Kind::Comma, 16..17)?.token(Kind::QuotedIdentifier, 17..25)?;
/// tape.close()?.close()?;
///
/// let settings = Settings { indent_width: 4, case: Case::UPPER };
/// assert_eq!(layout_to_string(text, &tape.finish()?, settings)?, "SELECT\n    `Größe`,\n    `温度`\n");
///
/// let mut tape = TapeBuilder::new();
/// tape.open(Kind::ColumnReference, 0..2)?.token(Kind::BareWord, 0..2)?.close()?;
/// let error = layout_to_string("é", &tape.finish()?, settings).unwrap_err();
/// assert_eq!(error.refusal(), Refusal::WordNotAscii);
/// # Ok::<(), qdesk::Error>(())
/// ```
///
/// What is said of [`layout_to_vec`] about tapes from strangers holds here, too.
///
/// # Errors
///
/// Refusals 1 to 3, 5 to 12, 15 and 16; a `&str` is well-formed (4).
pub fn layout_to_string(text: &str, tape: &[u8], settings: Settings) -> Result<String, Error> {
    let out = layout_to_vec(text.as_bytes(), tape, settings)?;
    Ok(String::from_utf8(out).expect("a layout is made of whole characters of the text, and of ASCII"))
}
