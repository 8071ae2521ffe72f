//! The stored list of words (vectors/words.txt): a line for each, with its answer.

use crate::answers::Answer;
use crate::source;
use crate::words::answer;
use std::collections::HashSet;

/// What begins the list: how its lines are to be read.
const HEAD: &str = "\
# Words and what qdesk_word answers: number, value, and the word in quotes, in which \\xNN is a byte by its hexadecimal number.
# Written from the original source by `oracle words`; vectors/README.md says what is in it.
";

/// A word of the list, and its answer.
#[derive(Debug, PartialEq)]
pub struct Stored {
    pub word: Vec<u8>,
    pub answer: Answer,
}

/// The whole list as text.
pub fn list() -> String {
    HEAD.to_string() + &every().iter().map(|word| line(word)).collect::<String>()
}

fn line(word: &[u8]) -> String {
    let Answer { number, second } = answer(word);
    format!("{number} {second} \"{}\"\n", quoted(word))
}

/// Printable bytes stand as they are, quote and backslash aside.
fn quoted(word: &[u8]) -> String {
    let plain = |byte: u8| (byte == b' ' || byte.is_ascii_graphic()) && byte != b'"' && byte != b'\\';
    word.iter()
        .map(|byte| if plain(*byte) { char::from(*byte).to_string() } else { format!("\\x{byte:02X}") })
        .collect()
}

/// The words of a list and their answers, if it is one.
pub fn read(list: &str) -> Option<Vec<Stored>> {
    list.lines().filter(|line| !line.starts_with('#')).map(read_line).collect()
}

fn read_line(line: &str) -> Option<Stored> {
    let (number, rest) = line.split_once(' ')?;
    let (second, rest) = rest.split_once(' ')?;
    let answer = Answer { number: number.parse().ok()?, second: second.parse().ok()? };
    let word = unquoted(rest.strip_prefix('"')?.strip_suffix('"')?)?;
    Some(Stored { word, answer })
}

fn unquoted(text: &str) -> Option<Vec<u8>> {
    let mut parts = text.split("\\x");
    let mut word = parts.next()?.as_bytes().to_vec();
    for part in parts {
        word.push(u8::from_str_radix(part.get(..2)?, 16).ok()?);
        word.extend(part[2..].bytes());
    }
    Some(word)
}

/// The words, each once: the entries in their order, what is near each, and what no entry is.
fn every() -> Vec<Vec<u8>> {
    let entries = || source::keywords().iter().map(|entry| entry.as_bytes());
    let mut words: Vec<Vec<u8>> = entries().map(<[u8]>::to_vec).collect();
    words.extend(entries().map(in_turns));
    words.extend([&b"TRUE"[..], b"FALSE", b"NULL"].iter().flat_map(|word| every_case(word)));
    words.extend(entries().enumerate().flat_map(|(place, entry)| near(entry, place)));
    words.extend([&b"SELECT"[..], b"TRUE", b"FALSE", b"NULL"].iter().flat_map(|word| every_remainder(word)));
    words.extend(by_length());
    words.extend(beyond_ascii());
    let mut seen = HashSet::new();
    words.retain(|word| seen.insert(word.clone()));
    words
}

/// Small letters and capitals in turns.
fn in_turns(word: &[u8]) -> Vec<u8> {
    let letter = |(at, byte): (usize, &u8)| if at % 2 == 0 { byte.to_ascii_lowercase() } else { *byte };
    word.iter().enumerate().map(letter).collect()
}

fn every_case(word: &[u8]) -> Vec<Vec<u8>> {
    let letter = |small: u32, at: usize| if small >> at & 1 == 1 { word[at].to_ascii_lowercase() } else { word[at] };
    (0..1u32 << word.len()).map(|small| (0..word.len()).map(|at| letter(small, at)).collect()).collect()
}

/// The entry with a letter more, or less, at either end, and with one byte changed: to the next letter, to a sign that shares its last
/// five bits, and by its highest bit.
fn near(entry: &[u8], place: usize) -> Vec<Vec<u8>> {
    let at = place % entry.len();
    let with = |byte: u8| [&entry[..at], &[byte], &entry[at + 1..]].concat();
    let next = if entry[at] == b'Z' { b'A' } else { entry[at] + 1 };
    vec![
        [entry, b"S"].concat(),
        [b"A", entry].concat(),
        entry[..entry.len() - 1].to_vec(),
        entry[1..].to_vec(),
        with(next),
        with(entry[at] - 32),
        with(entry[at] + 128),
    ]
}

/// The word with each byte in turn changed to each other one that shares its last five bits.
fn every_remainder(word: &[u8]) -> Vec<Vec<u8>> {
    let with = |at: usize, high: u8| [&word[..at], &[word[at] % 32 + 32 * high], &word[at + 1..]].concat();
    (0..word.len()).flat_map(|at| (0..8).map(move |high| with(at, high))).collect()
}

/// No byte and one; two that are no entry; 12, as the longest entries have, and 13; many more, 268 among them, whose low byte is 12.
fn by_length() -> Vec<Vec<u8>> {
    let mut words: Vec<Vec<u8>> = vec![Vec::new()];
    words.extend([0, b' ', b'"', b'\\', b'_', b'@', b'[', b'`', b'{', 127, 128, 255].map(|byte| vec![byte]));
    words.extend((b'A'..=b'Z').map(|byte| vec![byte]));
    words.extend(["AA", "YB", "ZZ", "B_", "_Y", "B1", "\0\0", "BY\0", "\0BY", " BY", "BY "].map(|word| word.into()));
    for length in [11, 12, 13, 14, 64, 255, 256, 257, 268, 1_000] {
        words.push(vec![b'A'; length]);
        words.push(b"MATERIALIZED".iter().copied().cycle().take(length).collect());
    }
    words
}

/// Texts that the source, which changes the case of all letters, takes for entries; texts near these; and bytes that are no text.
fn beyond_ascii() -> Vec<Vec<u8>> {
    let taken = ["ſelect", "falſe", "offſet", "lıke", "ﬁnal", "laﬅ", "proceßlist"];
    let near = ["SELECT\u{301}", "LİKE", "\u{212A}ILL", "ＮＵＬＬ"];
    let bytes: [&[u8]; 4] = [b"\xFFBY", b"NULL\xC0\x80", b"\xEF\xBB\xBFSELECT", b"TRU\xC5"];
    let texts = taken.iter().chain(&near).map(|text| text.as_bytes());
    texts.chain(bytes).map(<[u8]>::to_vec).collect()
}
