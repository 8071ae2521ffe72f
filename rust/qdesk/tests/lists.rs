//! The crate's lists of kinds, refusals and sorts of word against those of the port and of the C header.

mod common;

use qdesk::{needed_length, Kind, Refusal, Word, MOST_BOOK, MOST_BYTES, MOST_JOBS, MOST_OPEN, MOST_REPORT};
use std::fs;
use std::path::PathBuf;

/// A file of the repository.
fn read(file: &str) -> String {
    let path = PathBuf::from(env!("CARGO_MANIFEST_DIR")).join("../..").join(file);
    fs::read_to_string(&path).unwrap_or_else(|error| panic!("{}: {error}", path.display()))
}

/// `SelectStatement` as SELECT_STATEMENT.
fn constant(name: &str) -> String {
    let mut words = String::new();
    for letter in name.chars() {
        if letter.is_uppercase() && !words.is_empty() {
            words.push('_');
        }
        words.push(letter.to_ascii_uppercase());
    }
    words
}

#[test]
fn the_kinds_are_those_of_the_port() {
    let source = read("crates/tape/src/syntax_kind.rt");
    let port: Vec<&str> = source.lines().filter(|line| line.starts_with("pub const ")).collect();
    let here: Vec<String> = Kind::ALL
        .iter()
        .map(|kind| format!("pub const {}: u16 = {};", constant(&format!("{kind:?}")), u16::from(*kind)))
        .collect();
    assert_eq!(here, port);
}

#[test]
fn a_kind_stands_at_the_place_of_its_number() {
    for (place, kind) in Kind::ALL.iter().enumerate() {
        assert_eq!(usize::from(u16::from(*kind)), place, "{kind:?}");
    }
}

#[test]
fn the_library_carries_the_kinds_that_the_crate_names() {
    for kind in Kind::ALL {
        let tape = [common::open(*kind, 0, 0), common::CLOSE.to_vec()].concat();
        let carried = needed_length(b"", &tape, common::PLAIN).map_err(|error| error.refusal());
        let expected = if kind.is_carried() { Ok(0) } else { Err(Refusal::KindNotCarried) };
        assert_eq!(carried, expected, "{kind:?}");
    }
}

/// The entries of an enum in a header, as `NAME = number`, and what stands behind each.
fn entries(header: &str, name: &str) -> Vec<(String, String)> {
    let (_, list) = header.split_once(&format!("enum {name} {{")).expect("the header's enum");
    let (list, _) = list.split_once("};").expect("its end");
    let lines = list.lines().map(str::trim).filter(|line| line.starts_with("QDESK_"));
    let parts = lines.map(|line| line.split_at(line.find("/*").unwrap_or(line.len())));
    parts.map(|(entry, comment)| (entry.trim_end_matches([',', ' ']).to_string(), comment.to_string())).collect()
}

#[test]
fn the_refusals_are_those_of_the_header() {
    let header = read("include/qdesk.h");
    let refusals = Refusal::ALL.iter().map(|refusal| (constant(&format!("{refusal:?}")), *refusal as u64));
    let here: Vec<String> = std::iter::once(("ACCEPTED".to_string(), 0))
        .chain(refusals)
        .map(|(name, number)| format!("QDESK_{name} = {number}"))
        .collect();
    let there: Vec<String> = entries(&header, "qdesk_number").into_iter().map(|(entry, _)| entry).collect();
    assert_eq!(here, there);
    let names: Vec<&str> =
        header.lines().filter_map(|line| line.trim().strip_prefix("QDESK_NAME(QDESK_")?.strip_suffix(");")).collect();
    assert_eq!(names, here.iter().map(|entry| &entry["QDESK_".len()..entry.find(' ').unwrap()]).collect::<Vec<_>>());
}

/// The rows of README's table of answers: 0, each refusal, and 14, which is the desk's program's own.
#[test]
fn the_readme_has_every_answer() {
    let number = |line: &str| line.strip_prefix("| ")?.split_once(" |")?.0.parse::<u64>().ok();
    let rows: Vec<u64> = read("README.md").lines().filter_map(number).collect();
    let mut numbers: Vec<u64> = Refusal::ALL.iter().map(|refusal| *refusal as u64).chain([0, 14]).collect();
    numbers.sort_unstable();
    assert_eq!(rows, numbers);
}

#[test]
fn the_kinds_are_those_of_the_header() {
    let here: Vec<(String, String)> = Kind::ALL
        .iter()
        .map(|kind| {
            let mark = if kind.is_carried() { "" } else { "/* no node */" };
            (format!("QDESK_KIND_{} = {}", constant(&format!("{kind:?}")), *kind as u16), mark.to_string())
        })
        .collect();
    assert_eq!(here, entries(&read("include/qdesk_kinds.h"), "qdesk_kind"));
}

#[test]
fn the_sorts_of_word_are_those_of_the_header() {
    let sorts = [Word::Plain, Word::Value(0), Word::Keyword(0)].map(|sort| format!("{sort:?}").replace("(0)", ""));
    let here = sorts.iter().zip(0..).map(|(name, number)| format!("QDESK_SORT_{} = {number}", constant(name)));
    let there = entries(&read("include/qdesk.h"), "qdesk_sort").into_iter().map(|(entry, _)| entry);
    assert_eq!(here.collect::<Vec<_>>(), there.collect::<Vec<_>>());
}

#[test]
fn version_and_limits_are_those_of_the_header() {
    let header = read("include/qdesk.h");
    let defined = |line: String| assert!(header.lines().any(|there| there == line), "{line}");
    defined(format!("#define QDESK_VERSION \"{}\"", env!("CARGO_PKG_VERSION")));
    defined(format!("#define QDESK_MOST_BYTES {MOST_BYTES}"));
    defined(format!("#define QDESK_MOST_OPEN {MOST_OPEN}"));
    defined(format!("#define QDESK_MOST_BOOK {MOST_BOOK}"));
    defined(format!("#define QDESK_MOST_JOBS {MOST_JOBS}"));
    defined(format!("#define QDESK_MOST_REPORT {MOST_REPORT}"));
}
