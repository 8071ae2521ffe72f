//! The layout with its token map: on which line and in which column each token stands.

use crate::command::{commands, Command};
use crate::error::Error;
use crate::{ffi, in_memory, to_vec, Settings};

/// Where the first byte of a token stands in a layout.
#[derive(Clone, Copy, Debug, PartialEq, Eq, PartialOrd, Ord, Hash)]
pub struct Spot {
    /// The line, from 1.
    pub line: u64,
    /// The byte in its line, from 1.
    pub column: u64,
}

impl Spot {
    /// What two numbers of a map say: 0 and 0 is no spot.
    pub fn of([line, column]: [u64; 2]) -> Option<Spot> {
        (line > 0).then_some(Spot { line, column })
    }
}

/// A layout and the spots of its tokens.
#[derive(Clone, Debug, PartialEq, Eq)]
pub struct Mapped {
    /// The layout.
    pub layout: Vec<u8>,
    /// For every token of the tape, in order, where it stands. None for a token that isn't written, lies below a node copied as typed, has
    /// empty text, or loses all its bytes to trimming.
    pub spots: Vec<Option<Spot>>,
}

/// Lays out as [`layout`](crate::layout) does, and writes the map to the front of `map`: for every token of the tape, in order, two numbers,
/// the output line and column of its first byte, both from 1, columns in bytes. A fixed sign written for a token counts as its byte. A token
/// that isn't written, lies below a node copied as typed, has empty text, or loses all its bytes to trimming gets 0 and 0. Later bytes and
/// numbers stay as they were; so do all of both spaces on a refusal.
///
/// ```
/// use qdesk::{layout_map, Case, Kind, Refusal, Settings, TapeBuilder};
///
/// let mut tape = TapeBuilder::new();
/// tape.open(Kind::SelectClause, 0..8)?.token(Kind::BareWord, 0..6)?.token(Kind::Whitespace, 6..7)?;
/// tape.open(Kind::ColumnList, 7..8)?.token(Kind::Number, 7..8)?.close()?.close()?;
/// let tape = tape.finish()?;
/// let settings = Settings { indent_width: 4, case: Case::UPPER };
///
/// let (mut out, mut map) = ([0; 16], [9; 8]);
/// assert_eq!(layout_map(b"select 7", &tape, settings, &mut out, &mut map)?, 13);
/// assert_eq!(&out[..13], b"SELECT\n    7\n");
/// assert_eq!(map, [1, 1, 0, 0, 2, 5, 9, 9]); // select, the white space, 7; two numbers stay
///
/// let error = layout_map(b"select 7", &tape, settings, &mut out, &mut map[..5]).unwrap_err();
/// assert_eq!((error.refusal(), error.place()), (Refusal::MapTooShort, 6));
/// # Ok::<(), qdesk::Error>(())
/// ```
///
/// # Errors
///
/// Refusals 1 to 13 and 15 to 17.
pub fn layout_map(
    text: &[u8],
    tape: &[u8],
    settings: Settings,
    out: &mut [u8],
    map: &mut [u64],
) -> Result<usize, Error> {
    let answer = ffi::layout_map(text, tape, settings.indent_width, settings.case.0, out, map);
    match answer.number {
        0 => Ok(in_memory(answer.value)),
        _ => Err(Error::of(answer)),
    }
}

/// The layout and the spots of its tokens, in vectors of their lengths.
///
/// ```
/// use qdesk::{layout_map_to_vec, Case, Kind, Settings, Spot, TapeBuilder};
///
/// let mut tape = TapeBuilder::new();
/// tape.open(Kind::SelectClause, 0..8)?.token(Kind::BareWord, 0..6)?.token(Kind::Whitespace, 6..7)?;
/// tape.open(Kind::ColumnList, 7..8)?.token(Kind::Number, 7..8)?.close()?.close()?;
///
/// let settings = Settings { indent_width: 4, case: Case::UPPER };
/// let mapped = layout_map_to_vec(b"select 7", &tape.finish()?, settings)?;
/// assert_eq!(mapped.layout, b"SELECT\n    7\n");
/// assert_eq!(mapped.spots, [Some(Spot { line: 1, column: 1 }), None, Some(Spot { line: 2, column: 5 })]);
/// # Ok::<(), qdesk::Error>(())
/// ```
///
/// What is said of [`layout_to_vec`](crate::layout_to_vec) about tapes from strangers holds here, too.
///
/// # Errors
///
/// Refusals 1 to 12, 15 and 16.
pub fn layout_map_to_vec(text: &[u8], tape: &[u8], settings: Settings) -> Result<Mapped, Error> {
    let mut map = vec![0; 2 * tokens(tape)];
    let layout = to_vec(text, |out| layout_map(text, tape, settings, out, &mut map))?;
    let spots = map.chunks_exact(2).map(|numbers| Spot::of([numbers[0], numbers[1]])).collect();
    Ok(Mapped { layout, spots })
}

/// The tokens of a tape, up to the first command that is unknown or cut; a tape with one is refused.
fn tokens(tape: &[u8]) -> usize {
    commands(tape).filter(|(_, command)| matches!(command, Command::Token(_))).count()
}
