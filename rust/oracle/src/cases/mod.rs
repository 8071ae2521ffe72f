//! Cases: inputs by the thousand, each made from a seed, a class and an index alone. Making them needs the source.

mod books;
mod damaged;
mod jobs;
mod limits;
mod map;
mod masked;
mod query;
mod small;
mod utf8;
mod wild;
mod words;

pub use utf8::characters::listed as characters;

use crate::answers::{formatted, Case};
use crate::map::{MapCase, MapPair};
use crate::masking::Pair;
use crate::random::Random;

#[derive(Clone, Copy, Debug, PartialEq)]
pub enum Class {
    /// Trees as a parser makes them, over SELECT queries.
    Parser,
    /// Trees of any carried kind with any legal spans over any text.
    Wild,
    /// Calls of the two classes above with one or more faults.
    Damaged,
    /// Jobs for the desk's program, good and damaged.
    Jobs,
    /// Two texts and one tape under the masking rule.
    Masked,
    /// Sizes and settings at their limits and one past them.
    Limits,
    /// A node of each carried kind and of each routine in turn, with a few children.
    Small,
    /// A parser's and wild trees over texts with characters of one to four bytes.
    Utf8,
    /// Each of many characters in turn, in a token of each kind in turn, with a few children around it.
    Utf8Small,
    /// Calls of the class Utf8 with texts that are not well-formed, spans inside characters, bare words beyond ASCII.
    Utf8Damaged,
    /// Two texts and one tape under the masking rule, with other characters in as many bytes.
    Utf8Masked,
    /// Characters of several bytes at the limits.
    Utf8Limits,
    /// Words for the test of a word: entries of the list, what is near them, any bytes.
    Words,
    /// Good map calls: those of the other classes, and ones about what the map tells apart.
    Map,
    /// Map calls with one or more faults.
    MapDamaged,
    /// Two texts and one tape under the masking rule, lent the same spaces.
    MapMasked,
    /// Map calls with both spaces about the needed lengths, and the most tokens, lines and columns.
    MapLimits,
    /// Books of a few jobs, good, damaged and empty ones.
    Books,
    /// Books with one or more faults in their commands.
    BooksDamaged,
    /// Two books under the masking rule.
    BooksMasked,
    /// Books at the limits of jobs, bytes, lengths and layouts.
    BooksLimits,
}

impl Class {
    pub const ALL: [(&'static str, Class); 21] = [
        ("parser", Class::Parser),
        ("wild", Class::Wild),
        ("damaged", Class::Damaged),
        ("jobs", Class::Jobs),
        ("masked", Class::Masked),
        ("limits", Class::Limits),
        ("small", Class::Small),
        ("utf8", Class::Utf8),
        ("utf8-small", Class::Utf8Small),
        ("utf8-damaged", Class::Utf8Damaged),
        ("utf8-masked", Class::Utf8Masked),
        ("utf8-limits", Class::Utf8Limits),
        ("words", Class::Words),
        ("map", Class::Map),
        ("map-damaged", Class::MapDamaged),
        ("map-masked", Class::MapMasked),
        ("map-limits", Class::MapLimits),
        ("books", Class::Books),
        ("books-damaged", Class::BooksDamaged),
        ("books-masked", Class::BooksMasked),
        ("books-limits", Class::BooksLimits),
    ];

    pub fn named(name: &str) -> Option<Class> {
        Class::ALL.iter().find(|(known, _)| *known == name).map(|(_, class)| *class)
    }
}

/// A case of any class.
pub enum Made {
    Call(Case),
    Job(Vec<u8>),
    Pair(Pair),
    Word(Vec<u8>),
    MapCall(MapCase),
    MapPair(MapPair),
    Book(Vec<u8>),
    BookPair([Vec<u8>; 2]),
}

/// The case of this seed, class and index.
pub fn make(seed: u64, class: Class, index: u64) -> Made {
    let mut random = Random::of(seed, class as u64, index);
    match class {
        Class::Jobs => Made::Job(jobs::make(&mut random)),
        Class::Masked => Made::Pair(masked::make(&mut random)),
        Class::Limits => Made::Call(limits::make(&mut random, index)),
        Class::Parser => Made::Call(with_space(query::make(&mut random), &mut random)),
        Class::Wild => Made::Call(with_space(wild::make(&mut random), &mut random)),
        Class::Damaged => Made::Call(damaged::make(&mut random)),
        Class::Small => Made::Call(with_space(small::make(&mut random, index), &mut random)),
        Class::Utf8 => Made::Call(with_space(utf8::make(&mut random), &mut random)),
        Class::Utf8Small => Made::Call(with_space(utf8::small::make(&mut random, index), &mut random)),
        Class::Utf8Damaged => Made::Call(utf8::damaged::make(&mut random)),
        Class::Utf8Masked => Made::Pair(utf8::masked::make(&mut random)),
        Class::Utf8Limits => Made::Call(utf8::limits::make(&mut random, index)),
        Class::Words => Made::Word(words::make(&mut random)),
        Class::Map => Made::MapCall(map::make(&mut random, index)),
        Class::MapDamaged => Made::MapCall(map::damaged(&mut random)),
        Class::MapMasked => Made::MapPair(map::masked::make(&mut random)),
        Class::MapLimits => Made::MapCall(map::limits::make(&mut random, index)),
        Class::Books => Made::Book(books::make(&mut random)),
        Class::BooksDamaged => Made::Book(books::damaged(&mut random)),
        Class::BooksMasked => Made::BookPair(books::masked::make(&mut random)),
        Class::BooksLimits => Made::Book(books::limits::make(&mut random, index)),
    }
}

/// The call of this seed, class and index; for the classes that make calls.
pub fn call(seed: u64, class: Class, index: u64) -> Case {
    match make(seed, class, index) {
        Made::Call(case) => case,
        _ => panic!("{class:?} makes no single calls"),
    }
}

/// The map call of this seed, class and index; for the classes that make map calls.
pub fn map_call(seed: u64, class: Class, index: u64) -> MapCase {
    match make(seed, class, index) {
        Made::MapCall(case) => case,
        _ => panic!("{class:?} makes no single map calls"),
    }
}

/// A parser's or a wild call with an empty output space.
fn some_call(random: &mut Random) -> Case {
    if random.percent(50) {
        query::make(random)
    } else {
        wild::make(random)
    }
}

/// Text and tape with settings in their range and an empty output space.
fn with_settings(text: Vec<u8>, tape: Vec<u8>, random: &mut Random) -> Case {
    let width = random.below(17) as u64;
    let case = random.below(2) as u64;
    Case { text, tape, width, case, space: Vec::new() }
}

/// The call with an output space about as long as it needs; a refused call gets a few bytes.
fn with_space(mut case: Case, random: &mut Random) -> Case {
    let needed = formatted(&case).map_or(5, |output| output.len());
    let lengths = [needed, needed, needed.saturating_sub(1), needed + 5, 0];
    let length = lengths[random.below(lengths.len())];
    case.space = (0..length).map(|_| random.next() as u8).collect();
    case
}
