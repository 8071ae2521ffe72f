//! Small calls about one character: each in turn, in a token of each kind in turn, with a few children around it. The tokens are laid out
//! by a routine, or copied as typed.

use super::super::with_settings;
use super::characters;
use crate::answers::Case;
use crate::arms::representatives;
use crate::builder::Builder;
use crate::kinds::{self, TOKENS};
use crate::random::Random;

pub fn make(random: &mut Random, index: u64) -> Case {
    let characters = characters::listed();
    let kinds = token_kinds();
    let count = characters.len() as u64;
    let character = characters[(index % count) as usize];
    let kind = kinds[(index / count % kinds.len() as u64) as usize];
    let (text, tape) = Builder::build(|b| match random.below(10) {
        0 => b.node("Error", |b| children(b, kind, character, random)),
        1 => b.node("QueryList", |b| around_a_copy(b, kind, character, random)),
        _ => {
            let routines = representatives();
            let root = kinds::name(routines[random.below(routines.len())]);
            b.node(root, |b| children(b, kind, character, random));
        }
    });
    with_settings(text, tape, random)
}

/// The kinds whose tokens may hold any character, and one that no routine tells from others.
fn token_kinds() -> Vec<&'static str> {
    TOKENS.into_iter().filter(|kind| *kind != "BareWord").chain(["Identifier"]).collect()
}

/// A node that is copied for its Error node, and tokens before and after it.
fn around_a_copy(b: &mut Builder, kind: &str, character: char, random: &mut Random) {
    some_tokens(b, random);
    b.node("Expression", |b| {
        b.node("Error", |b| some_tokens(b, random));
        b.token(kind, &holding(character, random));
    });
    some_tokens(b, random);
}

fn children(b: &mut Builder, kind: &str, character: char, random: &mut Random) {
    some_tokens(b, random);
    b.token(kind, &holding(character, random));
    some_tokens(b, random);
}

/// Up to two tokens: words, comments, and any others of one or two characters or none.
fn some_tokens(b: &mut Builder, random: &mut Random) {
    for _ in 0..random.below(3) {
        match random.below(6) {
            0 => b.token("BareWord", random.pick(&["select", "a", "", "\x0B", "end"])),
            1 => b.token("Comment", random.pick(&["--", "--\u{85}", "/*\u{3000}*/", "--\u{A0}\n"])),
            _ => {
                let kind = random.pick(&token_kinds());
                let text: String = (0..random.below(3)).map(|_| characters::white_or_near(random)).collect();
                b.token(kind, &text);
            }
        }
    }
}

/// A text with the character in it: alone, first, last, between others, beside white space.
fn holding(character: char, random: &mut Random) -> String {
    let other = characters::white_or_near(random);
    match random.below(12) {
        0 | 1 => character.to_string(),
        2 | 3 => format!("a{character}"),
        4 => format!("{character}a"),
        5 => format!("'{character}'"),
        6 => format!("a{character}{other}"),
        7 => format!("a{other}{character}"),
        8 => format!("--{character}"),
        9 => format!("{character}\n"),
        10 => format!("\n{character}"),
        _ => format!("{other}{character}{other}"),
    }
}
