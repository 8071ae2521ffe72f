//! The corpora of the benchmark of laying out: queries by name, made from a seed alone.

use oracle::answers::Case;
use oracle::cases::{call, Class};
use oracle::edit::{kind_at, put_kind, respelled, span_at, text_at};
use oracle::kinds::{self, BARE_WORD};
use oracle::random::Random;
use oracle::source;
use oracle::tape::{command_places, push_close, push_open, push_token, CLOSE, OPEN, SPAN_COMMAND, TOKEN};
use oracle::text::accepted;
use std::collections::HashSet;

/// A corpus by its name on the command line, what it is, and how it is made. Those of one shape are the same for every seed.
pub struct Corpus {
    pub name: &'static str,
    pub label: &'static str,
    pub make: fn(u64) -> Vec<Case>,
}

pub const ALL: [Corpus; 27] = [
    Corpus { name: "typical", label: "2,000 different queries, one in six broken", make: typical },
    Corpus { name: "utf8", label: "the same with quoted names, strings and comments in many letters", make: utf8 },
    Corpus { name: "broken", label: "the broken ones among them", make: broken },
    Corpus { name: "repeated", label: "one query repeated", make: repeated },
    Corpus { name: "wide-50", label: "50 columns", make: |_| vec![wide(50)] },
    Corpus { name: "wide-500", label: "500 columns", make: |_| vec![wide(500)] },
    Corpus { name: "wide-2500", label: "2,500 columns", make: |_| vec![wide(2_500)] },
    Corpus { name: "words", label: "20,000 words, 2 levels", make: |_| vec![words(20_000)] },
    Corpus { name: "keywords", label: "20,000 keywords, 2 levels", make: |_| vec![keywords(20_000)] },
    Corpus { name: "numbers", label: "20,000 numbers, 2 levels", make: |_| vec![numbers(20_000)] },
    Corpus { name: "deep-63", label: "20,000 words, 63 tuples", make: |_| vec![deep(20_000)] },
    Corpus { name: "group-by-63", label: "20,000 words, 63 GROUP BY", make: |_| vec![group_by(20_000)] },
    Corpus { name: "blank-gaps", label: "23,800 gaps of 4,096 blanks", make: |_| vec![blanks("Whitespace")] },
    Corpus { name: "blank-words", label: "23,800 words of 4,096 blanks", make: |_| vec![blanks("BareWord")] },
    Corpus { name: "blank-numbers", label: "23,800 numbers of 4,096 blanks", make: |_| vec![blanks("Number")] },
    // The same shapes on tapes of 4.6 and of 231 KB, for how the cost grows.
    Corpus { name: "wide-5kb", label: "102 columns", make: |_| vec![wide(102)] },
    Corpus { name: "wide-231kb", label: "5,130 columns", make: |_| vec![wide(5_130)] },
    Corpus { name: "words-5kb", label: "420 words", make: |_| vec![words(420)] },
    Corpus { name: "words-231kb", label: "21,000 words", make: |_| vec![words(21_000)] },
    Corpus { name: "keywords-5kb", label: "420 keywords", make: |_| vec![keywords(420)] },
    Corpus { name: "keywords-231kb", label: "21,000 keywords", make: |_| vec![keywords(21_000)] },
    Corpus { name: "numbers-5kb", label: "420 numbers", make: |_| vec![numbers(420)] },
    Corpus { name: "numbers-231kb", label: "21,000 numbers", make: |_| vec![numbers(21_000)] },
    Corpus { name: "deep-5kb", label: "355 words, 63 tuples", make: |_| vec![deep(355)] },
    Corpus { name: "deep-231kb", label: "21,000 words, 63 tuples", make: |_| vec![deep(21_000)] },
    Corpus { name: "group-by-5kb", label: "355 words, 63 GROUP BY", make: |_| vec![group_by(355)] },
    Corpus { name: "group-by-231kb", label: "21,000 words, 63 GROUP BY", make: |_| vec![group_by(21_000)] },
];

/// The corpus of this name.
pub fn named(name: &str) -> Option<&'static Corpus> {
    ALL.iter().find(|corpus| corpus.name == name)
}

const QUERIES: usize = 2_000;

/// Written tokens for one that breaks its query.
const TOKENS_FOR_A_FAULT: usize = 580;

/// Different queries like a parser's. Any written token may be a fault, so the longer a query, the likelier it is broken.
fn typical(seed: u64) -> Vec<Case> {
    let mut faults = Random::of(seed, FAULTS, 0);
    let mut seen = HashSet::new();
    let whole =
        queries(seed).filter(|query| has_statement(query) && seen.insert((query.text.clone(), query.tape.clone())));
    whole.take(QUERIES).map(|query| with_fault(query, faults.below(TOKENS_FOR_A_FAULT))).collect()
}

/// The typical queries with half of their names, their strings and their comments in letters beyond ASCII.
fn utf8(seed: u64) -> Vec<Case> {
    let mut random = Random::of(seed, LETTERS, 0);
    typical(seed).into_iter().map(|query| in_letters(query, &mut random)).collect()
}

/// Names and words of plants, as they would type them.
const WORDS: [&str; 20] = [
    "Müller",
    "Größe",
    "Prüfstand 3",
    "Żnin",
    "naïve façade",
    "Температура",
    "Завод №5",
    "давление",
    "Θερμοκρασία",
    "מפעל",
    "مصنع",
    "温度",
    "工厂一号",
    "東京工場",
    "センサー",
    "공장",
    "कारखाना",
    "โรงงาน",
    "🏭 Halle",
    "📈",
];

/// The query with other texts for some of its tokens.
fn in_letters(mut query: Case, random: &mut Random) -> Case {
    for place in names(&query) {
        if random.percent(50) {
            put_kind(&mut query.tape, place, kinds::number("QuotedIdentifier"));
        }
    }
    // What is put for a byte of the text: a token's new text for its first byte, and nothing for the others.
    let mut bytes: Vec<Vec<u8>> = query.text.iter().map(|byte| vec![*byte]).collect();
    for place in tokens(&query) {
        if let Some(text) = text_in_letters(&query, place, random.pick(&WORDS)) {
            let (start, end) = span_at(&query.tape, place);
            bytes[start as usize..end as usize].fill(Vec::new());
            bytes[start as usize] = text.into_bytes();
        }
    }
    respelled(&query, |place| bytes[place].clone())
}

/// The nodes whose bare words are names, if they are no keywords.
const NAMED: [&str; 6] =
    ["ColumnReference", "QualifiedName", "TableIdentifier", "ColumnAlias", "TableAlias", "UsingList"];

/// The places of the bare words that are names of the plant's.
fn names(query: &Case) -> Vec<usize> {
    let mut open = Vec::new();
    let mut found = Vec::new();
    for place in command_places(&query.tape) {
        match query.tape[place] {
            OPEN => open.push(kinds::name(kind_at(&query.tape, place))),
            CLOSE => _ = open.pop(),
            _ if open.last().is_some_and(|parent| NAMED.contains(parent)) => found.push(place),
            _ => {}
        }
    }
    let is_word = |place: &usize| kind_at(&query.tape, *place) == BARE_WORD;
    let is_keyword = |place: &usize| text_at(query, *place).is_some_and(|text| source::is_keyword(accepted(text)));
    found.retain(|place| is_word(place) && !is_keyword(place));
    found
}

/// The text of a quoted name, a string or a comment with this word in it; none for other tokens.
fn text_in_letters(query: &Case, place: usize, word: &str) -> Option<String> {
    let text = text_at(query, place)?;
    match kinds::name(kind_at(&query.tape, place)) {
        "QuotedIdentifier" => Some(format!("`{word}`")),
        "StringToken" => Some(format!("'{word}'")),
        "Comment" if text.starts_with(b"/*") => Some(format!("/* {word} */")),
        "Comment" if text.ends_with(b"\n") => Some(format!("-- {word}\n")),
        "Comment" => Some(format!("-- {word}")),
        _ => None,
    }
}

/// The broken ones among the typical.
fn broken(seed: u64) -> Vec<Case> {
    typical(seed).into_iter().filter(is_broken).collect()
}

/// In place of a class, for numbers that no case is made from.
const FAULTS: u64 = u64::MAX;
const LETTERS: u64 = u64::MAX - 1;

/// The class's queries without an Error node.
fn queries(seed: u64) -> impl Iterator<Item = Case> {
    let any = (0..).map(move |index| Case { space: Vec::new(), ..call(seed, Class::Parser, index) });
    any.filter(|query| !is_broken(query))
}

/// The query with its written token of this number, if it has so many, in an Error node: so a parser that recovers puts a token that it
/// can't use.
fn with_fault(mut query: Case, number: usize) -> Case {
    let trivia = ["Whitespace", "Comment"].map(kinds::number);
    let written =
        tokens(&query).into_iter().filter(|place| !trivia.contains(&kind_at(&query.tape, *place))).nth(number);
    if let Some(place) = written {
        let mut error = query.tape[place..place + SPAN_COMMAND].to_vec();
        error[0] = OPEN;
        error[1..3].copy_from_slice(&kinds::number("Error").to_le_bytes());
        query.tape.insert(place + SPAN_COMMAND, CLOSE);
        query.tape.splice(place..place, error);
    }
    query
}

/// The first query of middling size.
fn repeated(seed: u64) -> Vec<Case> {
    queries(seed).filter(|query| (150..200).contains(&tokens(query).len())).take(1).collect()
}

/// The places of the commands of one sort.
fn places(query: &Case, command: u8) -> Vec<usize> {
    command_places(&query.tape).into_iter().filter(|place| query.tape[*place] == command).collect()
}

/// The places of the tokens.
pub fn tokens(query: &Case) -> Vec<usize> {
    places(query, TOKEN)
}

/// The kinds of the nodes.
fn nodes(query: &Case) -> Vec<u16> {
    places(query, OPEN).into_iter().map(|place| kind_at(&query.tape, place)).collect()
}

/// Whether there is an Error node.
pub fn is_broken(query: &Case) -> bool {
    nodes(query).contains(&kinds::number("Error"))
}

/// Whether there is more than a file of blanks and comments.
fn has_statement(query: &Case) -> bool {
    let around = ["File", "QueryList"].map(kinds::number);
    nodes(query).iter().any(|kind| !around.contains(kind))
}

fn plain(text: String, tape: Vec<u8>) -> Case {
    Case { text: text.into_bytes(), tape, width: 4, case: 1, space: Vec::new() }
}

/// A tape of nodes one in another, a File around the others, and of what `fill` puts into the innermost.
fn nested(inner: &[&str], end: u32, fill: impl FnOnce(&mut Vec<u8>)) -> Vec<u8> {
    let mut tape = Vec::new();
    push_open(&mut tape, kinds::number("File"), 0, end);
    inner.iter().for_each(|kind| push_open(&mut tape, kinds::number(kind), 0, end));
    fill(&mut tape);
    (0..=inner.len()).for_each(|_| push_close(&mut tape));
    tape
}

/// So many tokens of one text, a blank between them.
fn alike(count: usize, kind: &str, text: &str, inner: &[&str]) -> Case {
    let step = text.len() + 1;
    let tape = nested(inner, (count * step) as u32, |tape| {
        for start in (0..count).map(|i| i * step) {
            push_token(tape, kinds::number(kind), start as u32, (start + text.len()) as u32);
        }
    });
    plain(format!("{text} ").repeat(count), tape)
}

fn words(count: usize) -> Case {
    alike(count, "BareWord", "device", &["SelectStatement"])
}

fn keywords(count: usize) -> Case {
    alike(count, "BareWord", "select", &["SelectStatement"])
}

fn numbers(count: usize) -> Case {
    alike(count, "Number", "12345", &["SelectStatement"])
}

/// Words in 63 levels, the outermost a File.
fn deep(count: usize) -> Case {
    alike(count, "BareWord", "device", &["TupleExpression"; 62])
}

fn group_by(count: usize) -> Case {
    alike(count, "BareWord", "device", &["GroupByClause"; 62])
}

/// Tokens of one kind that each span 4,096 blanks, a byte after the one before, so that they overlap. A word before them has the layout
/// not be empty, so that it is written too.
fn blanks(kind: &str) -> Case {
    let (count, span) = (23_800, 4_096);
    let text = format!("a{}", " ".repeat(count - 1 + span));
    let tape = nested(&["SelectStatement"], text.len() as u32, |tape| {
        push_token(tape, kinds::number("BareWord"), 0, 1);
        for start in 1..=count {
            push_token(tape, kinds::number(kind), start as u32, (start + span) as u32);
        }
    });
    plain(text, tape)
}

/// A SELECT of so many columns.
fn wide(columns: usize) -> Case {
    let mut text = "select ".to_string();
    let mut list = Vec::new();
    for i in 0..columns {
        let start = text.len() as u32;
        text += &format!("column_{i}");
        let end = text.len() as u32;
        push_open(&mut list, kinds::number("ColumnReference"), start, end);
        push_token(&mut list, kinds::number("BareWord"), start, end);
        push_close(&mut list);
        if i + 1 < columns {
            text += ", ";
            push_token(&mut list, kinds::number("Comma"), end, end + 1);
            push_token(&mut list, kinds::number("Whitespace"), end + 1, end + 2);
        }
    }
    let end = text.len() as u32;
    let tape = nested(&["SelectStatement", "SelectClause"], end, |tape| {
        push_token(tape, kinds::number("BareWord"), 0, 6);
        push_token(tape, kinds::number("Whitespace"), 6, 7);
        push_open(tape, kinds::number("ColumnList"), 7, end);
        tape.extend(list);
        push_close(tape);
    });
    plain(text, tape)
}
