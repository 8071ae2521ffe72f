//! The comparison of a report call with the oracle: it finds nothing where the oracle itself stands in for the call, and each of many faults.
//! Needs the source alone, not the library.

mod report_faults;

use bench::compare::report::{compare, ReportCall, CLASSES};
use oracle::cases::Class;
use oracle::job::BUFFER;
use oracle::report::{answer, Called, ReportCase, Tally};
use report_faults::Fault;
use std::cell::Cell;

const SEED: u64 = 60;

/// The oracle as a call, with a change of what it gives.
fn stand_in(change: impl Fn(&ReportCase, &mut Called)) -> impl ReportCall {
    move |book: &[u8], more: u64, tally: &mut [u64; 4], work: &mut [u8; BUFFER], out: &mut [u8]| {
        let (book, work_before, space) = (book.to_vec(), work.to_vec(), out.to_vec());
        let asked = ReportCase { book, more, tally: Tally::of(*tally), work: work_before, space };
        let mut given = answer(&asked);
        change(&asked, &mut given);
        *tally = given.tally.numbers();
        work.copy_from_slice(&given.work);
        out.copy_from_slice(&given.space);
        given.put
    }
}

/// How many cases of each class the oracle is held to itself on, and every fault is tried on; of the limits those that are short.
const TRIED: [u64; CLASSES.len()] = [25, 30, 4, 27];

fn tried() -> impl Iterator<Item = (Class, u64)> {
    CLASSES.into_iter().zip(TRIED).flat_map(|(class, count)| (0..count).map(move |index| (class, index)))
}

#[test]
fn the_oracle_agrees_with_itself() {
    if !oracle::source::at_hand_for("the_oracle_agrees_with_itself") {
        return;
    }
    let port = stand_in(|_, _| {});
    for (class, index) in tried() {
        compare(SEED, class, index, &port).unwrap_or_else(|difference| panic!("{difference}"));
    }
}

/// The count of cases that are reported: those in which the fault shows, and no other.
fn reported(name: &str, fault: &Fault) -> usize {
    let shows = Cell::new(false);
    let port = stand_in(|asked, given| {
        let right = given.clone();
        fault.change(asked, given);
        shows.set(shows.get() || *given != right);
    });
    let is_reported = |(class, index)| {
        shows.set(false);
        let found = compare(SEED, class, index, &port);
        assert_eq!(found.is_err(), shows.get(), "{name}: {class:?} {index}: {found:?}");
        found.is_err()
    };
    tried().filter(|case| is_reported(*case)).count()
}

fn assert_reported(faults: &[(&str, Fault)]) {
    for (name, fault) in faults {
        assert!(reported(name, fault) > 0, "{name} shows in no case");
    }
}

#[test]
fn wrong_lines() {
    if oracle::source::at_hand_for("wrong_lines") {
        assert_eq!(reported("none", &report_faults::NONE), 0);
        assert_reported(&report_faults::LINES);
    }
}

#[test]
fn books_refused_wrongly() {
    if oracle::source::at_hand_for("books_refused_wrongly") {
        assert_reported(&report_faults::BOOKS);
    }
}

#[test]
fn wrong_spaces_and_tallies() {
    if oracle::source::at_hand_for("wrong_spaces_and_tallies") {
        assert_reported(&report_faults::SPACES);
    }
}

/// A write outside what was lent.
type Stray = fn(&mut [u64; 4], &mut [u8; BUFFER], &mut [u8]);

/// The oracle as a call that then writes so.
fn stray(write: Stray) -> impl ReportCall {
    let right = stand_in(|_, _| {});
    move |book: &[u8], more: u64, tally: &mut [u64; 4], work: &mut [u8; BUFFER], out: &mut [u8]| {
        let put = right(book, more, tally, work, out);
        write(tally, work, out);
        put
    }
}

/// Writes a cell before a space.
fn before<T>(space: &mut [T], cell: T) {
    // SAFETY: the comparison lends a part of a longer vector, so that the cell is its own; only a C function would do this.
    unsafe { space.as_mut_ptr().sub(1).write(cell) }
}

/// Writes a cell after a space.
fn after<T>(space: &mut [T], cell: T) {
    // SAFETY: as before a space.
    unsafe { space.as_mut_ptr().add(space.len()).write(cell) }
}

#[test]
fn a_touched_margin() {
    if !oracle::source::at_hand_for("a_touched_margin") {
        return;
    }
    let writes: [(Stray, &str); 6] = [
        (|tally, _, _| before(tally, 0), "4 numbers"),
        (|tally, _, _| after(tally, 0), "4 numbers"),
        (|_, work, _| before(work, b' '), "65536 bytes"),
        (|_, work, _| after(work, b' '), "65536 bytes"),
        (|_, _, out| before(out, b' '), " bytes"),
        (|_, _, out| after(out, b' '), " bytes"),
    ];
    for (write, cells) in writes {
        let port = stray(write);
        for (class, index) in tried() {
            let found = compare(SEED, class, index, &port).expect_err("a margin is touched");
            assert!(found.contains("the margins of a space of ") && found.ends_with(cells), "{found}");
        }
    }
}
