//! The kinds that the crate qdesk names are the source's.

#[path = "../../qdesk/src/kind.rs"]
mod kind;

use kind::Kind;
use oracle::kinds;

#[test]
fn names_and_numbers_are_the_sources() {
    if !oracle::source::at_hand_for("names_and_numbers_are_the_sources") {
        return;
    }
    let here: Vec<(String, u16)> = Kind::ALL.iter().map(|kind| (format!("{kind:?}"), u16::from(*kind))).collect();
    let source: Vec<(String, u16)> = kinds::NAMES.iter().map(|name| name.to_string()).zip(0..).collect();
    assert_eq!(here, source);
}

#[test]
fn the_kinds_not_carried_are_document_01s() {
    let mut here: Vec<String> =
        Kind::ALL.iter().filter(|kind| !kind.is_carried()).map(|kind| format!("{kind:?}")).collect();
    let mut document = kinds::NOT_CARRIED.map(|(name, _)| name.to_string()).to_vec();
    here.sort();
    document.sort();
    assert_eq!(here, document);
}
