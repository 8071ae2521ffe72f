//! The three sorts of word.

use crate::error::unknown;
use crate::ffi::{self, Answer};

/// What a word is to the keyword list, and where it stands there.
#[derive(Clone, Copy, Debug, PartialEq, Eq)]
pub enum Word {
    /// A word that is on the list in no case of its letters.
    Plain,
    /// TRUE, FALSE or NULL, in any case, and its place in the list.
    Value(usize),
    /// Any other word of the list, in any case, and its place in the list.
    Keyword(usize),
}

/// Which of the three sorts a word is. The list is clickhouse-analyzer's `KEYWORDS`; a place in it counts from 0, and is the first of a
/// word that stood there twice.
///
/// Every slice of bytes has its answer. A byte above 127 is no letter, so that a word with one is plain.
///
/// ```
/// use qdesk::{word, Word};
///
/// assert_eq!(word(b"select"), Word::Keyword(0));
/// assert_eq!(word(b"From"), Word::Keyword(1));
/// assert_eq!(word(b"null"), Word::Value(97));
/// assert_eq!(word(b"nulls_first"), Word::Plain);
/// assert_eq!(word(b""), Word::Plain);
/// ```
pub fn word(word: &[u8]) -> Word {
    let Answer { number, value } = ffi::word(word);
    let place = usize::try_from(value).expect("a place fits 64 bits, which this machine has");
    match number {
        0 => Word::Plain,
        1 => Word::Value(place),
        2 => Word::Keyword(place),
        _ => unknown(number),
    }
}
