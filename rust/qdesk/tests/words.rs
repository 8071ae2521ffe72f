//! The sorts of word: the stored list, answered by the crate as it says.

use oracle::answers::Answer;
use oracle::stored::words::read;
use qdesk::{word, Word};

const LIST: &str = include_str!("../../../vectors/words.txt");

fn stored(answer: Answer) -> Word {
    let place = answer.second as usize;
    [Word::Plain, Word::Value(place), Word::Keyword(place)][answer.number as usize]
}

#[test]
fn the_stored_words() {
    let list = read(LIST).expect("a list");
    assert!(!list.is_empty());
    for one in list {
        assert_eq!(word(&one.word), stored(one.answer), "{}", one.word.escape_ascii());
    }
}
