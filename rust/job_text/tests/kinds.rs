//! The kinds' names and numbers are the source's.

use job_text::kinds::{name, names, number};
use oracle::kinds::{COUNT, NAMES, NOT_CARRIED};

#[test]
fn the_list_is_the_sources() {
    if oracle::source::at_hand_for("the_list_is_the_sources") {
        assert_eq!(names(), NAMES);
    }
}

#[test]
fn the_list_is_as_long_as_document_01_says() {
    assert_eq!(names().len(), usize::from(COUNT));
    for (kind, place) in
        [("Error", 0), ("File", 1), ("QueryList", 2), ("SelectStatement", 3)].iter().chain(&NOT_CARRIED)
    {
        assert_eq!((number(kind), name(*place)), (Some(*place), Some(*kind)));
    }
}

#[test]
fn other_names_and_numbers_have_none() {
    assert_eq!(name(COUNT), None);
    assert_eq!(name(u16::MAX), None);
    for other in ["", "file", "FILE", "QUERY_LIST", "Querylist", "QueryListt"] {
        assert_eq!(number(other), None, "{other}");
    }
}
