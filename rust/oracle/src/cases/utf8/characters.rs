//! Characters of one to four bytes: white space and what is near it, letters, combining marks, the ends of the table's rows.

use crate::random::Random;
use crate::text::WHITE_SPACE;

/// Not white space: beside it in the order of numbers, invisible like it, or with the same last bytes.
const NEAR_WHITE_SPACE: &str = "\
    \u{8}\u{E}\u{1C}\u{1F}\u{21}\u{84}\u{86}\u{9F}\u{A1}\u{AD}\u{C5}\u{E0}\u{34F}\u{1640}\u{167F}\
    \u{1681}\u{16C0}\u{180E}\u{1FFF}\u{200B}\u{200D}\u{200E}\u{201F}\u{2027}\u{202A}\u{202E}\u{2030}\u{2040}\
    \u{205E}\u{2060}\u{2128}\u{2800}\u{2FFF}\u{3001}\u{3080}\u{3164}\u{FEFF}\u{22000}\u{C0000}";

/// Letters and signs of many scripts. Some change their case into another number of bytes, or into ASCII.
const LETTERS: &str = "éßſıİŉǆµÖюЖλΩבش«×÷कกẞ\u{212A}\u{212B}ﬁ漢字かナ한€—‐“，１😀🏭𝄞𐐀𐐨";

const COMBINING_MARKS: &str =
    "\u{300}\u{301}\u{308}\u{345}\u{36F}\u{5B0}\u{93E}\u{94D}\u{20DD}\u{302A}\u{FE0F}\u{E0100}";

/// The first and last characters of the table's rows.
const ENDS_OF_ROWS: &str = "\
    \u{0}\u{7F}\u{80}\u{7FF}\u{800}\u{FFF}\u{1000}\u{CFFF}\u{D000}\u{D7FF}\u{E000}\u{FFFF}\u{10000}\u{3FFFF}\
    \u{40000}\u{FFFFF}\u{100000}\u{10FFFF}";

/// All of these in a row, which the class of small calls goes round.
pub fn listed() -> Vec<char> {
    let others = [NEAR_WHITE_SPACE, LETTERS, COMBINING_MARKS, ENDS_OF_ROWS].concat();
    WHITE_SPACE.into_iter().chain(others.chars()).collect()
}

/// Any character, listed or not.
pub fn any(random: &mut Random) -> char {
    match random.below(12) {
        0..=4 => one_of(LETTERS, random),
        5 | 6 => WHITE_SPACE[random.below(WHITE_SPACE.len())],
        7 => one_of(NEAR_WHITE_SPACE, random),
        8 | 9 => one_of(COMBINING_MARKS, random),
        10 => one_of(ENDS_OF_ROWS, random),
        _ => unlisted(random),
    }
}

/// White space, or what is near it and is none.
pub fn white_or_near(random: &mut Random) -> char {
    if random.percent(70) {
        WHITE_SPACE[random.below(WHITE_SPACE.len())]
    } else {
        one_of(NEAR_WHITE_SPACE, random)
    }
}

fn ascii(random: &mut Random) -> char {
    if random.percent(50) {
        one_of(" \t\r\u{B}'\"`-/*#Sa7", random)
    } else {
        char::from(random.below(128) as u8)
    }
}

/// Any character of so many bytes, 1 to 4, that is no newline.
pub fn of_length(length: usize, random: &mut Random) -> char {
    loop {
        let character = if length == 1 { ascii(random) } else { any(random) };
        if character.len_utf8() == length && character != '\n' {
            return character;
        }
    }
}

/// Characters of so many bytes together, and no newline.
pub fn of_bytes(length: usize, random: &mut Random) -> String {
    let mut text = String::new();
    while text.len() < length {
        let most = (length - text.len()).min(4);
        text.push(of_length(random.within(1, most), random));
    }
    text
}

fn one_of(characters: &str, random: &mut Random) -> char {
    let place = random.below(characters.chars().count());
    characters.chars().nth(place).expect("a place below the count")
}

/// A character by its number, as many of each length in bytes.
fn unlisted(random: &mut Random) -> char {
    let past = [0x80, 0x800, 0x1_0000, 0x11_0000][random.below(4)];
    loop {
        if let Some(character) = char::from_u32(random.below(past) as u32) {
            return character;
        }
    }
}
