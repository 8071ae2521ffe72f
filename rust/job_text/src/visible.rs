//! Which characters can be seen, as far as Rust's library tells: not controls, formats, white space other than the blank, private and
//! unassigned ones.

/// What the library takes for visible and is not: most are Default_Ignorable_Code_Point in the Unicode Standard, two are blank signs.
const BLANK: [(char, char); 10] = [
    ('\u{34F}', '\u{34F}'),
    ('\u{115F}', '\u{1160}'),
    ('\u{17B4}', '\u{17B5}'),
    ('\u{180B}', '\u{180F}'),
    ('\u{2800}', '\u{2800}'),
    ('\u{3164}', '\u{3164}'),
    ('\u{FE00}', '\u{FE0F}'),
    ('\u{FFA0}', '\u{FFA0}'),
    ('\u{1D159}', '\u{1D159}'),
    ('\u{E0100}', '\u{E01EF}'),
];

/// Whether a character can be seen, at least behind another one.
pub fn is_visible(character: char) -> bool {
    if character.is_ascii() {
        return (' '..='~').contains(&character);
    }
    // Behind a letter the library escapes what it does not take for printable, and no combining mark.
    let behind_a_letter = format!("a{character}");
    let is_blank = BLANK.iter().any(|(first, last)| (*first..=*last).contains(&character));
    behind_a_letter.escape_debug().eq(behind_a_letter.chars()) && !is_blank
}

/// Whether a visible character joins the one before it.
pub fn is_combining(character: char) -> bool {
    !character.is_ascii() && !character.escape_debug().eq([character])
}
