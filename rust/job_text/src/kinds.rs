//! The kinds by name and number, read from crates/tape/src/syntax_kind.rt, where the list stands once.

use std::collections::HashMap;
use std::sync::OnceLock;

const LIST: &str = include_str!("../../../crates/tape/src/syntax_kind.rt");

/// The names in the order of their numbers, from 0.
pub fn names() -> &'static [String] {
    static NAMES: OnceLock<Vec<String>> = OnceLock::new();
    NAMES.get_or_init(|| LIST.lines().filter_map(listed).zip(0..).map(at_its_place).collect())
}

/// The name of the kind of this number.
pub fn name(number: u16) -> Option<&'static str> {
    names().get(usize::from(number)).map(String::as_str)
}

/// The number of the kind of this name.
pub fn number(name: &str) -> Option<u16> {
    static NUMBERS: OnceLock<HashMap<&str, u16>> = OnceLock::new();
    NUMBERS.get_or_init(|| names().iter().map(String::as_str).zip(0..).collect()).get(name).copied()
}

/// Name and number of a line `pub const QUERY_LIST: u16 = 2;`.
fn listed(line: &str) -> Option<(String, u16)> {
    let (name, number) = line.strip_prefix("pub const ")?.strip_suffix(';')?.split_once(": u16 = ")?;
    Some((name.split('_').map(capitalized).collect(), number.parse().ok()?))
}

fn at_its_place(((name, number), place): ((String, u16), u16)) -> String {
    assert_eq!(number, place, "the list has {name} out of order");
    name
}

fn capitalized(word: &str) -> String {
    word[..1].to_string() + &word[1..].to_lowercase()
}
