//! Prints each bare word of a query with its sort and its place in the keyword list, by which a page can colour it.

use qdesk::{commands, word, Command, Kind, TapeBuilder, TapeError, Word};
use std::error::Error;
use std::io::{self, Write};

const TEXT: &str = "select null, `from` from plants";

/// The tokens that a parser finds in the text; their words are all that is asked of the tree here.
fn tape() -> Result<Vec<u8>, TapeError> {
    let mut tape = TapeBuilder::new();
    tape.open(Kind::File, 0..31)?.token(Kind::BareWord, 0..6)?.token(Kind::Whitespace, 6..7)?;
    tape.token(Kind::BareWord, 7..11)?.token(Kind::Comma, 11..12)?.token(Kind::Whitespace, 12..13)?;
    tape.token(Kind::QuotedIdentifier, 13..19)?.token(Kind::Whitespace, 19..20)?;
    tape.token(Kind::BareWord, 20..24)?.token(Kind::Whitespace, 24..25)?.token(Kind::BareWord, 25..31)?;
    tape.close()?;
    tape.finish()
}

/// The text of a token, if it is a bare word.
fn bare_word(command: Command) -> Option<&'static str> {
    let Command::Token(token) = command else { return None };
    let is_word = token.kind == u16::from(Kind::BareWord);
    TEXT.get(token.start as usize..token.end as usize).filter(|_| is_word)
}

fn sort(text: &str) -> String {
    match word(text.as_bytes()) {
        Word::Plain => "plain word".to_string(),
        Word::Value(place) => format!("value word, place {place}"),
        Word::Keyword(place) => format!("keyword, place {place}"),
    }
}

fn main() -> Result<(), Box<dyn Error>> {
    let mut out = io::stdout().lock();
    for (_, command) in commands(&tape()?) {
        if let Some(text) = bare_word(command) {
            writeln!(out, "{text}: {}", sort(text))?;
        }
    }
    Ok(out.flush()?)
}
