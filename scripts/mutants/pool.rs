//! The calls that the choice is made from.

use oracle::answers::Case;
use oracle::stored::{by_hand, names, Record, MOST_STORED};
use std::collections::HashSet;

const SEED: u64 = 1;

/// How many cases of each class the choice is made from.
const POOL: [(&str, u64); 11] = [
    ("small", 200_000),
    ("wild", 30_000),
    ("parser", 20_000),
    ("masked", 10_000),
    ("damaged", 10_000),
    ("limits", 960),
    ("utf8", 10_000),
    ("utf8-small", 60_000),
    ("utf8-damaged", 30_000),
    ("utf8-masked", 5_000),
    ("utf8-limits", 300),
];

/// The most bytes of a record that may be chosen.
const MOST_BYTES: usize = 1_500;

/// A call that may be chosen: its name, its record, and the record's length.
pub struct Candidate {
    pub name: String,
    pub record: Record,
    pub bytes: usize,
}

impl Candidate {
    pub fn of(name: String, record: Record) -> Candidate {
        let bytes = record.case.text.len() + record.case.tape.len() + record.layout.len() + 72;
        Candidate { name, record, bytes }
    }

    /// The call that a line of cases.txt names.
    fn named(name: String) -> Candidate {
        let case = names::call(&name).expect("the name of a call");
        Candidate::of(name, Record::of(case))
    }

    /// The class, or the name of a call made by hand.
    pub fn class(&self) -> &str {
        self.name.split(' ').nth(1).expect("a class")
    }

    /// The index in the class; 0 for a call made by hand.
    pub fn index(&self) -> u64 {
        self.name.split(' ').nth(2).map_or(0, |index| index.parse().expect("an index"))
    }

    pub fn is_by_hand(&self) -> bool {
        self.name.starts_with("hand ")
    }

    fn is_short(&self) -> bool {
        self.bytes <= MOST_BYTES && self.record.case.space.len() <= MOST_STORED
    }

    /// What tells it from others: all but the name.
    fn input(&self) -> (Vec<u8>, Vec<u8>, u64, u64, usize) {
        let Case { text, tape, width, case, space } = &self.record.case;
        (text.clone(), tape.clone(), *width, *case, space.len())
    }
}

/// The names of a case's calls.
fn names_of(class: &str, index: u64) -> Vec<String> {
    let name = format!("{SEED} {class} {index}");
    match class {
        "masked" | "utf8-masked" => vec![format!("{name} first"), format!("{name} second")],
        _ => vec![name],
    }
}

/// The calls that are not too long, each once and the shortest first; those made by hand before all others.
pub fn pool() -> Vec<Candidate> {
    let mut seen = HashSet::new();
    let mut all: Vec<Candidate> = Vec::new();
    for (class, count) in POOL {
        let made = (0..count).flat_map(|index| names_of(class, index)).map(Candidate::named);
        all.extend(made.filter(|one| one.is_short() && seen.insert(one.input())));
    }
    all.sort_by_key(|one| one.bytes);
    let by_hand = by_hand::every().into_iter().map(|name| Candidate::named(format!("hand {name}")));
    by_hand.chain(all).collect()
}
