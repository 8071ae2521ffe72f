//! Calls of the stored list that no generator makes in a short form, by name.

use crate::answers::Case;
use crate::builder::Builder;
use crate::source;
use crate::tape::MOST_BYTES;

/// The calls whose texts and tapes are longer than what is stored of them.
const LONG: [&str; 11] = [
    "tape-too-long",
    "tape-at-most",
    "text-and-tape-too-long",
    "text-too-long",
    "text-at-most",
    "case-2-and-text-too-long",
    "text-too-long-with-high-byte",
    "high-byte-and-tape-too-long",
    "text-at-most-accepted",
    "character-and-tape-too-long",
    "character-in-text-at-most",
];

/// How many words a call of words has.
const WORDS: usize = 24;

/// The names of all calls made by hand, in the list's order.
pub fn every() -> Vec<String> {
    let long = LONG.iter().map(|name| name.to_string());
    let keywords = (0..calls_of(keywords().len())).map(|call| format!("keywords-{call}"));
    let near = (0..calls_of(near_keywords().len())).map(|call| format!("near-keywords-{call}"));
    long.chain(keywords).chain(near).collect()
}

/// The call of this name.
pub fn call(name: &str) -> Option<Case> {
    if let Some(call) = name.strip_prefix("keywords-") {
        return words_call(keywords(), call);
    }
    if let Some(call) = name.strip_prefix("near-keywords-") {
        return words_call(near_keywords(), call);
    }
    long(name)
}

fn long(name: &str) -> Option<Case> {
    let past = MOST_BYTES + 1;
    let (text, tape) = match name {
        "tape-too-long" => (Vec::new(), zeros(past)),
        "tape-at-most" => (Vec::new(), zeros(MOST_BYTES)),
        "text-and-tape-too-long" => (zeros(past), zeros(past)),
        "text-too-long" | "case-2-and-text-too-long" => (zeros(past), Vec::new()),
        "text-at-most" => (zeros(MOST_BYTES), Vec::new()),
        "text-too-long-with-high-byte" => (before_zeros(&[128], past), Vec::new()),
        "high-byte-and-tape-too-long" => (vec![128], zeros(past)),
        "text-at-most-accepted" => (before_zeros(b"a", MOST_BYTES), one_token("BareWord", "a")),
        "character-and-tape-too-long" => ("é".into(), zeros(past)),
        "character-in-text-at-most" => (before_zeros("é".as_bytes(), MOST_BYTES), one_token("Number", "é")),
        _ => return None,
    };
    let case = if name.starts_with("case-2") { 2 } else { 1 };
    Some(Case { text, tape, width: 4, case, space: vec![0; 3] })
}

fn zeros(length: usize) -> Vec<u8> {
    vec![0; length]
}

/// These bytes and then zeros, so many bytes together.
fn before_zeros(front: &[u8], length: usize) -> Vec<u8> {
    let mut bytes = front.to_vec();
    bytes.resize(length, 0);
    bytes
}

/// The tape of a File with one token.
fn one_token(kind: &str, text: &str) -> Vec<u8> {
    Builder::build(|b| b.node("File", |b| b.token(kind, text))).1
}

fn keywords() -> Vec<String> {
    source::keywords().iter().map(|word| word.to_string()).collect()
}

/// Words that are nearly keywords and are none.
fn near_keywords() -> Vec<String> {
    let near = source::keywords().iter().flat_map(|word| near(word));
    near.filter(|word| !source::keywords().contains(&word.as_str())).collect()
}

/// The word with a letter more, and with a letter less.
pub fn near(word: &str) -> [String; 2] {
    [format!("{word}S"), word[..word.len() - 1].to_string()]
}

fn calls_of(words: usize) -> usize {
    words.div_ceil(WORDS)
}

/// So many of the words under a ColumnReference, typed small for capitals or the other way round.
fn words_call(words: Vec<String>, call: &str) -> Option<Case> {
    let call: usize = call.parse().ok()?;
    let upper = call.is_multiple_of(2);
    let typed = |word: &String| if upper { word.to_lowercase() } else { word.clone() };
    let words: Vec<String> = words.chunks(WORDS).nth(call)?.iter().map(typed).collect();
    let (text, tape) =
        Builder::build(|b| b.node("ColumnReference", |b| words.iter().for_each(|word| b.token("BareWord", word))));
    let space = vec![0; text.len() + words.len()];
    Some(Case { text, tape, width: 4, case: u64::from(upper), space })
}
