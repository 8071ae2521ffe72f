//! Good calls about what the map tells apart: signs over other text, tokens of no byte, of white space, with newlines, below nodes copied
//! as typed, at the end where all of them is lost, and several of one span. A node of each routine in turn has them.

use super::super::with_settings;
use crate::answers::Case;
use crate::arms::representatives;
use crate::builder::Builder;
use crate::edit::{kind_at, put_span, span_at, span_commands, text_at};
use crate::kinds::{self, BARE_WORD, TOKENS};
use crate::random::Random;
use crate::tape::TOKEN;

pub fn make(random: &mut Random, index: u64) -> Case {
    let routines = representatives();
    let routine = kinds::name(routines[(index % routines.len() as u64) as usize]);
    let (text, tape) = Builder::build(|b| {
        if random.percent(50) {
            b.node(routine, |b| children(b, random));
        } else {
            b.node("QueryList", |b| among_others(b, routine, random));
        }
    });
    let mut case = with_settings(text, tape, random);
    for _ in 0..random.below(4) {
        share_a_span(&mut case, random);
    }
    case
}

fn among_others(b: &mut Builder, routine: &str, random: &mut Random) {
    if random.percent(40) {
        copied(b, random);
    }
    b.node(routine, |b| children(b, random));
    (0..random.below(3)).for_each(|_| token(b, random));
    if random.percent(40) {
        b.node("SubqueryExpression", |b| children(b, random));
    }
}

fn children(b: &mut Builder, random: &mut Random) {
    for _ in 0..random.within(1, 10) {
        match random.below(10) {
            0 => copied(b, random),
            1 => {
                let routines = representatives();
                let kind = kinds::name(routines[random.below(routines.len())]);
                b.node(kind, |b| (0..random.below(4)).for_each(|_| token(b, random)));
            }
            _ => token(b, random),
        }
    }
    if random.percent(40) {
        (0..random.within(1, 3)).for_each(|_| white_end(b, random));
    }
}

/// A node copied as typed, with tokens below it at several levels. Below File, QueryList or an Error node it is copied alone.
fn copied(b: &mut Builder, random: &mut Random) {
    if random.percent(50) {
        b.node("Error", |b| (0..random.below(3)).for_each(|_| token(b, random)));
        return;
    }
    b.node("Expression", |b| {
        token(b, random);
        b.node("Error", |b| token(b, random));
        b.node("ExpressionList", |b| token(b, random));
    });
}

/// The kinds that some routine writes a sign for.
const SIGNS: [&str; 10] = [
    "Comma",
    "Semicolon",
    "Colon",
    "Minus",
    "OpeningRoundBracket",
    "ClosingRoundBracket",
    "OpeningSquareBracket",
    "ClosingSquareBracket",
    "OpeningCurlyBrace",
    "ClosingCurlyBrace",
];

fn token(b: &mut Builder, random: &mut Random) {
    let kind = match random.below(10) {
        0..=3 => random.pick(&SIGNS),
        4 => "BareWord",
        5 => "Comment",
        6 => "Whitespace",
        _ => random.pick(&TOKENS),
    };
    let text = match kind {
        "BareWord" => random.pick(&WORDS),
        "Comment" if random.percent(70) => random.pick(&COMMENTS),
        "Whitespace" if random.percent(70) => random.pick(&WHITES),
        _ => random.pick(&TEXTS),
    };
    b.token(kind, text);
}

const WORDS: [&str; 12] = ["", " ", "\n", "x", "a\nb", "select", "End", "case", "null", "WHEN", "\nfrom\n", "host "];

const COMMENTS: [&str; 7] = ["--", "--x", "--x\ny", "/*c*/", "/*\n\n*/", "/*é\n*/ ", "#!\n"];

const WHITES: [&str; 8] = [" ", "\n", "\n\n", " \t\n ", "\u{B}", "\u{85}", "\u{A0}\n", "\u{3000}"];

const TEXTS: [&str; 22] = [
    "",
    "",
    ",",
    ";",
    ":",
    "-",
    "(",
    ")",
    "x",
    "x\n",
    "\nx",
    "'a\nb'",
    "'\n\n\n'",
    "\n",
    " ",
    " \n",
    "x ",
    "é",
    "'日本\n語'",
    "\u{A0}",
    "\u{2003}x",
    "\u{3000}\n",
];

/// A token that trimming takes, if nothing follows it.
fn white_end(b: &mut Builder, random: &mut Random) {
    let kind = random.pick(&["Number", "StringToken", "Comment", "Comma", "Dot", "Plus"]);
    b.token(kind, random.pick(&WHITES));
}

/// Gives some token the span of another. A bare word stays ASCII.
fn share_a_span(case: &mut Case, random: &mut Random) {
    let tokens: Vec<usize> = span_commands(&case.tape).into_iter().filter(|place| case.tape[*place] == TOKEN).collect();
    if tokens.is_empty() {
        return;
    }
    let [to, from] = [0, 1].map(|_| tokens[random.below(tokens.len())]);
    let is_ascii = text_at(case, from).is_some_and(|text| text.is_ascii());
    if is_ascii || kind_at(&case.tape, to) != BARE_WORD {
        let span = span_at(&case.tape, from);
        put_span(&mut case.tape, to, span);
    }
}
