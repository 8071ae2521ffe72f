//! What a word is, as document 02 (E2) says it.

use crate::answers::Answer;
use crate::source;

const PLAIN: u64 = 0;
const VALUE: u64 = 1;
const KEYWORD: u64 = 2;

/// The sort of a word, and its place in the source's list: the first, if it stands there twice.
pub fn answer(word: &[u8]) -> Answer {
    let Some(text) = ascii(word).filter(|text| source::is_keyword(text)) else {
        return Answer { number: PLAIN, second: 0 };
    };
    let number = if source::is_value_keyword(text) { VALUE } else { KEYWORD };
    let is_it = |entry: &&str| entry.eq_ignore_ascii_case(text);
    let place = source::keywords().iter().position(is_it).expect("a keyword is on the list");
    Answer { number, second: place as u64 }
}

/// The word as a text. The source would change the case of letters beyond ASCII, too, and take `ſelect` for SELECT; words stay ASCII (E1).
fn ascii(word: &[u8]) -> Option<&str> {
    std::str::from_utf8(word).ok().filter(|text| text.is_ascii())
}
