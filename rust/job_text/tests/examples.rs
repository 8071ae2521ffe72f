//! The examples: their forms are as the programs write them, and their layouts and reports are the oracle's.

use job_text::{book, parse, print};
use oracle::job::printed;
use oracle::report::{report, Tally};
use std::collections::BTreeSet;
use std::fs;
use std::path::PathBuf;

fn folder() -> PathBuf {
    PathBuf::from(env!("CARGO_MANIFEST_DIR")).join("../../examples")
}

/// The names of the files that end so, without that ending.
fn names(ending: &str) -> BTreeSet<String> {
    let files = fs::read_dir(folder()).expect("the examples");
    let names = files.map(|file| file.expect("an example").file_name().into_string().expect("a plain name"));
    names.filter_map(|name| name.strip_suffix(ending).map(str::to_string)).collect()
}

fn file(name: &str, ending: &str) -> String {
    fs::read_to_string(folder().join(format!("{name}{ending}"))).expect("an example")
}

#[test]
fn each_has_what_is_printed_and_a_line_in_the_readme() {
    let forms = &names(".job.txt") | &names(".book.txt");
    assert!(forms.len() > 30);
    assert_eq!(forms, names(".out"));
    let readme = file("README", ".md");
    // The course sheet has one line for all.
    for name in forms.iter().filter(|name| !name.starts_with("sheet-")) {
        assert!(readme.contains(&format!("`{name}`")), "{name}");
    }
}

#[test]
fn each_form_is_as_the_program_writes_it() {
    for name in names(".job.txt") {
        let form = file(&name, ".job.txt");
        let job = parse(form.as_bytes()).unwrap_or_else(|fault| panic!("{name}: {fault}"));
        assert_eq!(print(&job).as_deref(), Ok(form.as_str()), "{name}");
    }
}

#[test]
fn each_layout_is_the_oracles() {
    if !oracle::source::at_hand_for("each_layout_is_the_oracles") {
        return;
    }
    for name in names(".job.txt") {
        let job = parse(file(&name, ".job.txt").as_bytes()).unwrap_or_else(|fault| panic!("{name}: {fault}"));
        assert_eq!(String::from_utf8(printed(&job)).as_deref(), Ok(file(&name, ".out").as_str()), "{name}");
    }
}

#[test]
fn each_book_is_as_the_program_writes_it_and_its_report_the_oracles() {
    assert_eq!(names(".book.txt").len(), 2);
    for name in names(".book.txt") {
        let form = file(&name, ".book.txt");
        let bytes = book::parse(form.as_bytes()).unwrap_or_else(|fault| panic!("{name}: {fault}"));
        let mut again = Vec::new();
        book::print(&bytes, &mut again).expect("memory takes what is written");
        assert!(again == form.as_bytes(), "{name}");
        if oracle::source::at_hand_for("the reports of the examples") {
            let printed = report(&bytes, Tally::default()).printed;
            assert_eq!(String::from_utf8(printed).as_deref(), Ok(file(&name, ".out").as_str()), "{name}");
        }
    }
}

#[test]
fn a_masked_book_has_the_same_report() {
    let [first, second] = ["saved-queries", "saved-queries-masked"];
    assert_ne!(file(first, ".book.txt"), file(second, ".book.txt"));
    assert_eq!(file(first, ".out"), file(second, ".out"));
}

#[test]
fn masked_names_leave_every_line_as_long_as_it_was() {
    // In bytes.
    let lengths = |name: &str| file(name, ".out").lines().map(str::len).collect::<Vec<_>>();
    for name in ["quoted-names", "names-in-letters"] {
        let masked = format!("{name}-masked");
        assert_eq!(lengths(name), lengths(&masked), "{name}");
        assert_ne!(file(name, ".out"), file(&masked, ".out"), "{name}");
    }
}
