//! The readable form of a book: what each part spells, every fault with its line and column, and books by the thousand to the form and back.

use job_text::book::{of, parse, print};
use oracle::cases::{make, Class, Made};
use oracle::source::at_hand_for;
use std::fs;
use std::path::Path;

const SEED: u64 = 41;

const JOB: &[u8] = &[0x10, 4, 0x11, 1, 0x12, 1, 0, 0, 0, 0x61, 1, 0, 0, 0, 0, 0, 0, 1, 0, 0, 0, 3];
const JOB_FORM: &str = "width 4\ncase upper\ntext \"a\"\n\nError 0 to 1\n";

fn form(book: &[u8]) -> String {
    let mut form = Vec::new();
    print(book, &mut form).expect("memory takes what is written");
    String::from_utf8(form).expect("a form is made of whole characters")
}

/// Checks both ways that the form spells the book.
#[track_caller]
fn assert_spells(written: &str, book: &[u8]) {
    assert_eq!(form(book), written);
    assert_eq!(parse(written.as_bytes()).unwrap(), book);
}

#[track_caller]
fn assert_fault(form: &str, message: &str) {
    assert_eq!(parse(form.as_bytes()).unwrap_err().to_string(), message);
}

#[test]
fn a_book_is_its_jobs_one_below_the_other() {
    assert_spells("", b"");
    assert_spells(&format!("job\n{JOB_FORM}"), &of(&[JOB]));
    assert_spells(&format!("job\n{JOB_FORM}\njob\n{JOB_FORM}"), &of(&[JOB, JOB]));
    let book = [&[0x20, 22, 0, 0, 0], JOB].concat();
    assert_eq!(of(&[JOB]), book);
}

#[test]
fn blank_lines_and_line_ends_mean_nothing() {
    let written = format!("\n\njob\n\n{JOB_FORM}\n\n\njob\n{JOB_FORM}").replace('\n', "\r\n");
    assert_eq!(parse(written.as_bytes()).unwrap(), of(&[JOB, JOB]));
    assert_eq!(parse(b"\n \n").unwrap(), b"");
}

#[test]
fn a_job_whose_header_is_not_whole_is_its_bytes() {
    assert_spells("job\nbytes\n", &of(&[b""]));
    assert_spells("job\nbytes 10 04 11\n\njob\nbytes FF\n", &of(&[&[0x10, 4, 0x11][..], &[0xFF]]));
    let long = [7; 17];
    let line = " 07".repeat(16);
    assert_spells(&format!("job\nbytes{line}\nbytes 07\n"), &of(&[long]));
}

#[test]
fn what_is_no_whole_command_ends_the_form() {
    assert_spells("end 21 00\n", &[0x21, 0]);
    assert_spells("job\nbytes\n\nend 20 01 00 00 00\n", &[&of(&[b""])[..], &[0x20, 1, 0, 0, 0]].concat());
    let line = " 00".repeat(16);
    assert_spells(&format!("end{line}\nend{line}\nend 00\n"), &[0; 33]);
}

#[test]
fn a_tapes_rest_is_not_the_books_end() {
    let job = [&JOB[..10], &[4, 3]].concat();
    assert_spells("job\nwidth 4\ncase upper\ntext \"a\"\n\nrest 04 03\n", &of(&[job]));
}

#[test]
fn faults_have_their_line_and_column_in_the_book() {
    assert_fault("width 4\n", "line 1, column 1: expected job or end");
    assert_fault("\n  job\n", "line 2, column 3: expected job or end");
    assert_fault("job 4\n", "line 1, column 5: nothing more is expected in this line");
    assert_fault("job\n", "line 2, column 1: expected width");
    assert_fault(&format!("job\n{JOB_FORM}\njob\nwidth 4\n\n"), "line 11, column 1: expected case");
    assert_fault(&format!("job\n{JOB_FORM}\njob\nwidth 256\n"), "line 9, column 7: expected a number from 0 to 255");
    assert_fault(&format!("job\n{JOB_FORM}  job\n"), "line 7, column 3: no kind is named job");
    assert_fault("job\nbytes 1\n", "line 2, column 7: expected bytes of two hexadecimal digits each");
    assert_fault("job\nbytes 10\nwidth 4\n", "line 3, column 1: expected bytes");
    assert_fault("end 2\n", "line 1, column 5: expected bytes of two hexadecimal digits each");
    for below in ["job\n", "bytes\n", "  end\n"] {
        let column = 1 + below.len() - below.trim_start().len();
        assert_fault(
            &format!("end 20\n\n{below}"),
            &format!("line 3, column {column}: only end at the margin may follow end"),
        );
    }
    assert_fault("job\n\x07\n", "line 2, column 1: byte 07 can't stand here; a quoted text has it as an escape");
}

/// The book comes back from its form, and the form from the book.
fn assert_round(book: &[u8], name: &str) {
    let written = form(book);
    let back = parse(written.as_bytes()).unwrap_or_else(|fault| panic!("{name}: {fault}"));
    assert!(back == book, "{name}: the bytes differ");
}

#[test]
fn books_by_the_thousand() {
    if !at_hand_for("books_by_the_thousand") {
        return;
    }
    for (class, count) in [(Class::Books, 1_000), (Class::BooksDamaged, 1_000), (Class::BooksLimits, 32)] {
        for index in 0..count {
            let Made::Book(book) = make(SEED, class, index) else { panic!("the class makes books") };
            assert_round(&book, &format!("seed {SEED}, {class:?}, index {index}"));
        }
    }
}

#[test]
fn the_stored_books() {
    let folder = Path::new(env!("CARGO_MANIFEST_DIR")).join("../../crates/report/runs");
    let files = fs::read_dir(folder).expect("the stored books").map(|file| file.unwrap().path());
    let mut count = 0;
    for file in files.filter(|file| file.extension().is_some_and(|extension| extension == "book")) {
        assert_round(&fs::read(&file).unwrap(), &file.display().to_string());
        count += 1;
    }
    assert!(count > 50);
}
