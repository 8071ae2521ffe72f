//! Quoted texts: any bytes between double quotes, characters that can be seen as they stand.

use crate::visible::{is_combining, is_visible};

/// The letters that stand for a byte behind a backslash.
const ESCAPES: [(u8, u8); 5] = [(b'n', b'\n'), (b't', b'\t'), (b'r', b'\r'), (b'\\', b'\\'), (b'"', b'"')];

/// The bytes in quotes. What is no well-formed character is escaped byte by byte.
pub fn quoted(bytes: &[u8]) -> String {
    let mut quoted = Quoted { text: String::from('"'), is_open: false };
    for chunk in bytes.utf8_chunks() {
        chunk.valid().chars().for_each(|character| quoted.push(character));
        chunk.invalid().iter().for_each(|byte| quoted.escape(&hexadecimal_escape(*byte)));
    }
    quoted.text + "\""
}

/// A quoted text up to some character.
struct Quoted {
    text: String,
    /// Whether the last character stands for itself, so that a combining mark may join it.
    is_open: bool,
}

impl Quoted {
    fn push(&mut self, character: char) {
        if let Some((letter, _)) = ESCAPES.iter().find(|(_, escaped)| char::from(*escaped) == character) {
            self.escape(&format!("\\{}", char::from(*letter)));
        } else if is_visible(character) && (self.is_open || !is_combining(character)) {
            self.text.push(character);
            self.is_open = true;
        } else if character.is_ascii() {
            self.escape(&hexadecimal_escape(character as u8));
        } else {
            self.escape(&format!("\\u{{{:X}}}", u32::from(character)));
        }
    }

    fn escape(&mut self, escape: &str) {
        self.text.push_str(escape);
        self.is_open = false;
    }
}

fn hexadecimal_escape(byte: u8) -> String {
    format!("\\x{byte:02X}")
}

/// The bytes that the quoted text at the beginning of `line` stands for, and its length with both quotes; or a fault and its
/// place in the line.
pub fn unquoted(line: &str) -> Result<(Vec<u8>, usize), (usize, &'static str)> {
    let mut bytes = Vec::new();
    let mut place = 1;
    loop {
        match line.as_bytes().get(place) {
            None => return Err((0, "this quote is not closed")),
            Some(b'"') => return Ok((bytes, place + 1)),
            Some(b'\\') => {
                let (escaped, length) = escaped(&line[place + 1..]).ok_or((place, NO_ESCAPE))?;
                bytes.extend(escaped);
                place += 1 + length;
            }
            Some(byte) => {
                bytes.push(*byte);
                place += 1;
            }
        }
    }
}

const NO_ESCAPE: &str = r#"an escape is \n, \t, \r, \\, \", \x with two hexadecimal digits or \u{} with a character's number in hexadecimal digits"#;

/// The bytes that an escape stands for by what follows its backslash, and the length of that.
fn escaped(rest: &str) -> Option<(Vec<u8>, usize)> {
    if let Some(digits) = rest.strip_prefix('x') {
        return hexadecimal(digits.as_bytes().get(..2)?).map(|byte| (vec![byte], 3));
    }
    if let Some(rest) = rest.strip_prefix("u{") {
        let (digits, _) = rest.split_once('}')?;
        return character(digits).map(|character| (character.to_string().into_bytes(), digits.len() + 3));
    }
    let letter = rest.as_bytes().first()?;
    ESCAPES.iter().find(|(known, _)| known == letter).map(|(_, byte)| (vec![*byte], 1))
}

/// The character of a number in one to six hexadecimal digits.
fn character(digits: &str) -> Option<char> {
    let are_digits = (1..=6).contains(&digits.len()) && digits.bytes().all(|byte| byte.is_ascii_hexdigit());
    u32::from_str_radix(digits, 16).ok().filter(|_| are_digits).and_then(char::from_u32)
}

/// The byte that two hexadecimal digits spell.
pub fn hexadecimal(digits: &[u8]) -> Option<u8> {
    let value = |digit: u8| char::from(digit).to_digit(16);
    match digits {
        [high, low] => Some((value(*high)? * 16 + value(*low)?) as u8),
        _ => None,
    }
}
