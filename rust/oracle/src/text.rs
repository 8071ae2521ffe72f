//! The text: well-formed UTF-8 and white space, both by the Unicode Standard.

/// The text, or the first byte that isn't part of a well-formed character.
pub fn well_formed(bytes: &[u8]) -> Result<&str, usize> {
    std::str::from_utf8(bytes).map_err(|error| error.valid_up_to())
}

/// A text that 4 lets pass.
pub fn accepted(bytes: &[u8]) -> &str {
    well_formed(bytes).expect("4 was tried")
}

/// A row of the table: the first and last byte that may stand at each place of a character.
pub type Row = &'static [(u8, u8)];

/// The Standard's table of well-formed UTF-8 byte sequences.
pub fn table() -> &'static [Row] {
    &[
        &[(0x00, 0x7F)],
        &[(0xC2, 0xDF), (0x80, 0xBF)],
        &[(0xE0, 0xE0), (0xA0, 0xBF), (0x80, 0xBF)],
        &[(0xE1, 0xEC), (0x80, 0xBF), (0x80, 0xBF)],
        &[(0xED, 0xED), (0x80, 0x9F), (0x80, 0xBF)],
        &[(0xEE, 0xEF), (0x80, 0xBF), (0x80, 0xBF)],
        &[(0xF0, 0xF0), (0x90, 0xBF), (0x80, 0xBF), (0x80, 0xBF)],
        &[(0xF1, 0xF3), (0x80, 0xBF), (0x80, 0xBF), (0x80, 0xBF)],
        &[(0xF4, 0xF4), (0x80, 0x8F), (0x80, 0xBF), (0x80, 0xBF)],
    ]
}

/// The first byte that isn't part of a well-formed character, by the table.
pub fn first_ill_formed(text: &[u8]) -> Option<usize> {
    let mut place = 0;
    while place < text.len() {
        let row = table().iter().find(|row| begins(&text[place..], row));
        let Some(row) = row else { return Some(place) };
        place += row.len();
    }
    None
}

/// Whether a character of this row begins the bytes.
fn begins(bytes: &[u8], row: Row) -> bool {
    bytes.len() >= row.len() && row.iter().zip(bytes).all(|((first, last), byte)| (first..=last).contains(&byte))
}

/// The characters with the property White_Space.
pub const WHITE_SPACE: [char; 25] = [
    '\u{9}', '\u{A}', '\u{B}', '\u{C}', '\u{D}', '\u{20}', '\u{85}', '\u{A0}', '\u{1680}', '\u{2000}', '\u{2001}',
    '\u{2002}', '\u{2003}', '\u{2004}', '\u{2005}', '\u{2006}', '\u{2007}', '\u{2008}', '\u{2009}', '\u{200A}',
    '\u{2028}', '\u{2029}', '\u{202F}', '\u{205F}', '\u{3000}',
];

pub fn is_white_space(character: char) -> bool {
    WHITE_SPACE.contains(&character)
}
