//! A line of the readable form, read word by word.

use crate::quote::{hexadecimal, unquoted};
use crate::visible::is_visible;
use std::fmt;
use std::str::FromStr;

/// Why a form can't be read, and where; line and column count from 1, columns in bytes.
#[derive(Debug, PartialEq)]
pub struct Fault {
    pub line: usize,
    pub column: usize,
    pub message: String,
}

impl fmt::Display for Fault {
    fn fmt(&self, out: &mut fmt::Formatter<'_>) -> fmt::Result {
        write!(out, "line {}, column {}: {}", self.line, self.column, self.message)
    }
}

pub struct Line<'a> {
    number: usize,
    text: &'a str,
    /// The offset of what is read next; blanks are passed over.
    place: usize,
}

impl<'a> Line<'a> {
    /// The line of this number, at its first word. All its characters can be seen, save for a carriage return at its end.
    pub fn new(number: usize, bytes: &'a [u8]) -> Result<Line<'a>, Fault> {
        let bytes = bytes.strip_suffix(b"\r").unwrap_or(bytes);
        let text = seen(bytes).map_err(|(place, what)| {
            let is_indent = bytes[place] == b'\t' && bytes[..place].iter().all(|byte| *byte == b' ');
            let message = match is_indent {
                true => "indent with blanks: a tab can't stand here".to_string(),
                false => format!("{what} can't stand here; a quoted text has it as an escape"),
            };
            Fault { line: number, column: place + 1, message }
        })?;
        let mut line = Line { number, text, place: 0 };
        line.skip(0);
        Ok(line)
    }

    pub fn place(&self) -> usize {
        self.place
    }

    pub fn fault(&self, message: &str) -> Fault {
        self.fault_at(self.place, message)
    }

    pub fn fault_at(&self, place: usize, message: &str) -> Fault {
        Fault { line: self.number, column: place + 1, message: message.to_string() }
    }

    fn remaining(&self) -> &'a str {
        &self.text[self.place..]
    }

    pub fn is_at_end(&self) -> bool {
        self.remaining().is_empty()
    }

    pub fn is_at_quote(&self) -> bool {
        self.remaining().starts_with('"')
    }

    pub fn is_at_digit(&self) -> bool {
        self.remaining().starts_with(|character: char| character.is_ascii_digit())
    }

    /// The word that comes next, which a blank or a quote ends; empty at the line's end and before a quote.
    pub fn word(&self) -> &'a str {
        self.remaining().split([' ', '"']).next().unwrap_or("")
    }

    /// Passes over so many bytes and the blanks behind them.
    fn skip(&mut self, length: usize) {
        self.place += length;
        self.place = self.text.len() - self.remaining().trim_start_matches(' ').len();
    }

    /// Passes over this word if it comes next.
    pub fn take(&mut self, word: &str) -> bool {
        let comes = self.word() == word;
        if comes {
            self.skip(word.len());
        }
        comes
    }

    pub fn expect(&mut self, word: &str) -> Result<(), Fault> {
        if self.take(word) {
            Ok(())
        } else {
            Err(self.fault(&format!("expected {word}")))
        }
    }

    pub fn end(&self) -> Result<(), Fault> {
        if self.is_at_end() {
            Ok(())
        } else {
            Err(self.fault("nothing more is expected in this line"))
        }
    }

    /// A decimal number; `most` is the largest of its type.
    pub fn number<T: FromStr + fmt::Display>(&mut self, most: T) -> Result<T, Fault> {
        let word = self.word();
        // A sign is no digit, but `parse` takes one.
        let digits = word.bytes().all(|byte| byte.is_ascii_digit());
        let number = word.parse().ok().filter(|_| digits);
        let number = number.ok_or_else(|| self.fault(&format!("expected a number from 0 to {most}")))?;
        self.skip(word.len());
        Ok(number)
    }

    /// The bytes of a quoted text.
    pub fn quoted(&mut self) -> Result<Vec<u8>, Fault> {
        if !self.is_at_quote() {
            return Err(self.fault("expected a quoted text"));
        }
        let (bytes, length) =
            unquoted(self.remaining()).map_err(|(place, message)| self.fault_at(self.place + place, message))?;
        self.skip(length);
        Ok(bytes)
    }

    /// Hexadecimal bytes up to the line's end.
    pub fn hexadecimal(&mut self) -> Result<Vec<u8>, Fault> {
        let mut bytes = Vec::new();
        while !self.is_at_end() {
            let word = self.word();
            let byte = hexadecimal(word.as_bytes())
                .ok_or_else(|| self.fault("expected bytes of two hexadecimal digits each"))?;
            bytes.push(byte);
            self.skip(word.len());
        }
        Ok(bytes)
    }

    /// The level that the indent says; asked before a word is read.
    pub fn level(&self) -> Result<usize, Fault> {
        if self.place % 2 == 1 {
            return Err(self.fault("an indent is two blanks a level"));
        }
        Ok(self.place / 2)
    }
}

/// The bytes as a text of visible characters, or what is not one and its place.
fn seen(bytes: &[u8]) -> Result<&str, (usize, String)> {
    let length = std::str::from_utf8(bytes).err().map_or(bytes.len(), |error| error.valid_up_to());
    let (text, rest) = bytes.split_at(length);
    let text = std::str::from_utf8(text).expect("well-formed up to there");
    if let Some((place, character)) = text.char_indices().find(|(_, character)| !is_visible(*character)) {
        return Err((place, unseen(character)));
    }
    match rest.first() {
        Some(byte) => Err((length, format!("byte {byte:02X}"))),
        None => Ok(text),
    }
}

fn unseen(character: char) -> String {
    match character.is_ascii() {
        true => format!("byte {:02X}", character as u8),
        false => format!("character U+{:04X}", u32::from(character)),
    }
}
