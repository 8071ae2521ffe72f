//! The port's map call answers as the oracle does, and leaves both spaces as it says; and so it does on the stored list.

use bench::compare::compare;
use bench::compare::map::mapped;
use bench::layout_map;
use oracle::cases::Class;
use oracle::stored::maps::read;

const SEED: u64 = 24;

const LIST: &[u8] = include_bytes!("../../../vectors/maps.bin");

fn cases(test: &str, class: Class, count: u64) {
    if !oracle::source::at_hand_for(test) {
        return;
    }
    for index in 0..count {
        compare(SEED, class, index).unwrap_or_else(|difference| panic!("{difference}"));
    }
}

#[test]
fn good_calls() {
    cases("good_calls", Class::Map, 12_000);
}

#[test]
fn damaged_calls() {
    cases("damaged_calls", Class::MapDamaged, 6_000);
}

#[test]
fn masked_pairs() {
    cases("masked_pairs", Class::MapMasked, 500);
}

#[test]
fn limits() {
    cases("limits", Class::MapLimits, 72);
}

/// Needs the library alone, not the source.
#[test]
fn the_stored_list() {
    let records = read(LIST).expect("a whole list");
    assert!(!records.is_empty());
    for (place, record) in records.iter().enumerate() {
        assert_eq!(mapped(&record.case(), &layout_map), Ok(record.mapped()), "record {place}");
    }
}
