//! Lays out `select a,b from t` from a tree that is spelt by hand, and prints the query before and after.

use qdesk::{layout_to_string, Case, Kind, Settings, TapeBuilder, TapeError};
use std::error::Error;
use std::io::{self, Write};

pub const TEXT: &str = "select a,b from t";

/// The tree that a parser makes of the text.
pub fn tape() -> Result<Vec<u8>, TapeError> {
    let mut tape = TapeBuilder::new();
    tape.open(Kind::File, 0..17)?.open(Kind::SelectStatement, 0..17)?;
    tape.open(Kind::SelectClause, 0..10)?.token(Kind::BareWord, 0..6)?.token(Kind::Whitespace, 6..7)?;
    tape.open(Kind::ColumnList, 7..10)?;
    tape.open(Kind::ColumnReference, 7..8)?.token(Kind::BareWord, 7..8)?.close()?;
    tape.token(Kind::Comma, 8..9)?;
    tape.open(Kind::ColumnReference, 9..10)?.token(Kind::BareWord, 9..10)?.close()?;
    tape.close()?.close()?;
    tape.token(Kind::Whitespace, 10..11)?;
    tape.open(Kind::FromClause, 11..17)?.token(Kind::BareWord, 11..15)?.token(Kind::Whitespace, 15..16)?;
    tape.open(Kind::TableIdentifier, 16..17)?.token(Kind::BareWord, 16..17)?.close()?;
    tape.close()?.close()?.close()?;
    tape.finish()
}

fn main() -> Result<(), Box<dyn Error>> {
    let settings = Settings { indent_width: 4, case: Case::UPPER };
    let mut out = io::stdout().lock();
    write!(out, "before:\n\n{TEXT}\n\nafter:\n\n{}", layout_to_string(TEXT, &tape()?, settings)?)?;
    Ok(out.flush()?)
}
