//! Small calls: a node of each carried kind and of each routine in turn, with a few children of all sorts; as the root, or with
//! another node after it that shows the state it leaves.

use super::with_settings;
use crate::answers::Case;
use crate::arms::representatives;
use crate::builder::Builder;
use crate::coverage::{NODE_KINDS, WORDS};
use crate::kinds;
use crate::random::Random;
use crate::source;

pub fn make(random: &mut Random, index: u64) -> Case {
    let kind = kinds::name(kind_of(index));
    let (text, tape) = Builder::build(|b| {
        if random.percent(70) {
            b.node(kind, |b| children(b, random));
        } else {
            b.node("QueryList", |b| followed(b, kind, random));
        }
    });
    with_settings(text, tape, random)
}

fn followed(b: &mut Builder, kind: &str, random: &mut Random) {
    b.node(kind, |b| children(b, random));
    if random.percent(30) {
        token(b, random);
    }
    b.node("ColumnReference", |b| token(b, random));
}

/// At even indices the carried kinds in turn, at odd ones a kind of each routine in turn.
fn kind_of(index: u64) -> u16 {
    let kinds = match index % 2 {
        0 => (0..kinds::COUNT).filter(|kind| kinds::is_carried(*kind)).collect(),
        _ => representatives(),
    };
    kinds[(index / 2 % kinds.len() as u64) as usize]
}

fn children(b: &mut Builder, random: &mut Random) {
    for _ in 0..random.within(1, 10) {
        match random.below(10) {
            0..=2 => {
                let kind = node_kind(random);
                b.node(kind, |b| grandchildren(b, random));
            }
            3 => name_then_bracket(b, random),
            _ => token(b, random),
        }
    }
}

/// A name and a round bracket, which some routines set without a blank.
fn name_then_bracket(b: &mut Builder, random: &mut Random) {
    let name = random.pick(&["BareWord", "QuotedIdentifier"]);
    token_of(b, name, random);
    token_of(b, "OpeningRoundBracket", random);
}

fn node_kind(random: &mut Random) -> &'static str {
    match random.below(20) {
        0 => "Error",
        1..=9 => random.pick(&NODE_KINDS),
        _ => random.pick(&["ColumnReference", "File", "QueryList", "Identifier", "Expression"]),
    }
}

fn grandchildren(b: &mut Builder, random: &mut Random) {
    for _ in 0..random.below(4) {
        if random.percent(40) {
            b.node("ColumnReference", |b| token(b, random));
        } else {
            token(b, random);
        }
    }
}

fn token(b: &mut Builder, random: &mut Random) {
    let kind = match random.below(10) {
        0 => "Whitespace",
        1 => "Comment",
        2 | 3 => "BareWord",
        4 => random.pick(&["Comma", "OpeningRoundBracket"]),
        5 => kinds::name(random.below(usize::from(kinds::COUNT)) as u16),
        _ => random.pick(&kinds::TOKENS),
    };
    token_of(b, kind, random);
}

/// A token whose text suits its kind, or now and then does not.
fn token_of(b: &mut Builder, kind: &str, random: &mut Random) {
    let text = match (kind, random.below(8)) {
        (_, 0) => random.pick(&["", "\n", "x,y", "--"]),
        ("Whitespace", _) => random.pick(&[" ", "\n", "\n\n", " \n\t\n", "\x0b"]),
        ("Comment", _) => random.pick(&["--x", "/*c*/", "#!", "--"]),
        ("BareWord", 1..=3) => random.pick(&WORDS),
        ("BareWord", 4) => random.pick(source::keywords()),
        ("BareWord", _) => random.pick(&["case", "End", "null", "True", "host", "a", "xy"]),
        _ => random.pick(&["(", ")", ",", "+", "'s'", "7"]),
    };
    b.token(kind, text);
}
