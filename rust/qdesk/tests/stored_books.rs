//! The stored books of the report program through the crate: the report, or the refusal, and the tally of the last line.

use qdesk::{report, Tally, MOST_REPORT};
use std::fs;
use std::path::PathBuf;

#[test]
fn every_stored_book_is_reported_on_as_stored() {
    let folder = PathBuf::from(env!("CARGO_MANIFEST_DIR")).join("../../crates/report/runs");
    let files = fs::read_dir(folder).expect("the folder of the stored books").map(|entry| entry.unwrap().path());
    let mut count = 0;
    for file in files.filter(|file| file.extension().is_some_and(|extension| extension == "book")) {
        let (book, stored) = (fs::read(&file).unwrap(), fs::read_to_string(file.with_extension("out")).unwrap());
        let mut tally = Tally { jobs: 5, refused: 6, bytes: 7, lines: 8 };
        match report(&book, &mut tally) {
            Ok(report) => {
                let Tally { jobs, refused, bytes, lines } = tally;
                let last = format!("total jobs {jobs} refused {refused} bytes {bytes} lines {lines}\n");
                assert!(report == stored && report.ends_with(&last), "{}", file.display());
                assert!(report.len() < MOST_REPORT);
            }
            Err(error) => {
                let line = format!("refused {} at {}\n", error.number(), error.place());
                assert_eq!((line, tally.jobs), (stored, 5), "{}", file.display());
            }
        }
        count += 1;
    }
    assert!(count > 50, "{count} stored books");
}
