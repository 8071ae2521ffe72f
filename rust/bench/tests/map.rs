//! The comparison of a map call with the oracle finds nothing where the oracle itself stands in for the call, and each of many faults; the
//! stored list shows each, too. Needs the source alone, not the library.

mod faults;

use bench::compare::map::{compare, MapCall, CLASSES};
use faults::Fault;
use oracle::answers::{Answer, Case};
use oracle::cases::Class;
use oracle::map::{answer, MapCase, Mapped};
use oracle::stored::maps::{read, MapRecord};
use std::cell::Cell;

const SEED: u64 = 24;

const LIST: &[u8] = include_bytes!("../../../vectors/maps.bin");

/// The oracle as a call, with a change of what it gives.
fn stand_in(change: impl Fn(&MapCase, &mut Mapped)) -> impl MapCall {
    move |text: &[u8], tape: &[u8], width: u64, case: u64, out: &mut [u8], map: &mut [u64]| {
        let call = Case { text: text.to_vec(), tape: tape.to_vec(), width, case, space: out.to_vec() };
        let asked = MapCase { call, map: map.to_vec() };
        let mut given = answer(&asked);
        change(&asked, &mut given);
        out.copy_from_slice(&given.space);
        map.copy_from_slice(&given.map);
        given.answer
    }
}

/// How many cases of each class every fault is tried on; of the limits those that are short.
const TRIED: [u64; CLASSES.len()] = [700, 100, 20, 16];

fn tried() -> impl Iterator<Item = (Class, u64)> {
    CLASSES.into_iter().zip(TRIED).flat_map(|(class, count)| (0..count).map(move |index| (class, index)))
}

/// The count of cases that are reported: those in which the fault shows, and no other.
fn reported(name: &str, fault: &Fault) -> usize {
    let shows = Cell::new(false);
    let port = stand_in(|asked, given| {
        let right = given.clone();
        fault.change(asked, given);
        shows.set(shows.get() || *given != right);
    });
    let is_reported = |(class, index)| {
        shows.set(false);
        let found = compare(SEED, class, index, &port);
        assert_eq!(found.is_err(), shows.get(), "{name}: {class:?} {index}: {found:?}");
        found.is_err()
    };
    tried().filter(|case| is_reported(*case)).count()
}

fn assert_reported(faults: &[(&str, Fault)]) {
    for (name, fault) in faults {
        let count = reported(name, fault);
        assert!(count >= 50, "{name}: {count} cases are too few");
    }
}

/// The records of the stored list for which a call with the fault gives something else.
fn stored(records: &[MapRecord], fault: &Fault) -> usize {
    let shows = |record: &&MapRecord| {
        let mut given = record.mapped();
        fault.change(&record.case(), &mut given);
        given != record.mapped()
    };
    records.iter().filter(shows).count()
}

#[test]
fn the_stored_list_shows_every_fault() {
    if !oracle::source::at_hand_for("the_stored_list_shows_every_fault") {
        return;
    }
    let records = read(LIST).expect("a whole list");
    assert_eq!(stored(&records, &faults::NONE), 0);
    for (name, fault) in faults::MAPS.iter().chain(&faults::ANSWERS).chain(&faults::SPACES) {
        let count = stored(&records, fault);
        assert!(count >= 3, "{name}: {count} records are too few");
    }
}

#[test]
fn a_wrong_map() {
    if oracle::source::at_hand_for("a_wrong_map") {
        assert_eq!(reported("none", &faults::NONE), 0);
        assert_reported(&faults::MAPS);
    }
}

#[test]
fn a_wrong_answer_or_space() {
    if oracle::source::at_hand_for("a_wrong_answer_or_space") {
        assert_reported(&faults::ANSWERS);
        assert_reported(&faults::SPACES);
    }
}

/// A write outside a space.
type Stray = fn(&mut [u8], &mut [u64]);

/// The oracle as a call that then writes so.
fn stray(write: Stray) -> impl MapCall {
    let right = stand_in(|_, _| {});
    move |text: &[u8], tape: &[u8], width: u64, case: u64, out: &mut [u8], map: &mut [u64]| -> Answer {
        let answer = right(text, tape, width, case, out, map);
        write(out, map);
        answer
    }
}

/// Writes a cell before a space.
fn before<T>(space: &mut [T], cell: T) {
    // SAFETY: the comparison lends a part of a longer vector, so that the cell is its own; only a C function would do this.
    unsafe { space.as_mut_ptr().sub(1).write(cell) }
}

/// Writes a cell after a space.
fn after<T>(space: &mut [T], cell: T) {
    // SAFETY: as before a space.
    unsafe { space.as_mut_ptr().add(space.len()).write(cell) }
}

#[test]
fn a_touched_margin() {
    if !oracle::source::at_hand_for("a_touched_margin") {
        return;
    }
    let writes: [(Stray, &str); 4] = [
        (|out, _| before(out, b' '), " bytes"),
        (|out, _| after(out, b' '), " bytes"),
        (|_, map| before(map, 0), " numbers"),
        (|_, map| after(map, 0), " numbers"),
    ];
    for (write, cells) in writes {
        let port = stray(write);
        for (class, index) in tried() {
            let found = compare(SEED, class, index, &port).expect_err("a margin is touched");
            assert!(found.contains("the margins of a space of ") && found.ends_with(cells), "{found}");
        }
    }
}
