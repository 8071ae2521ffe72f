//! What is put, tallied and left in the spaces wrongly.

use super::{known, right, Fault};
use oracle::report::{Called, ReportCase, Tally};

pub const SPACES: [(&str, Fault); 12] = [
    ("the report's length where less is put", Fault::Given(|asked, given| given.put = right(asked).printed.len())),
    ("one byte less put", Fault::Given(|_, given| given.put = given.put.saturating_sub(1))),
    ("the last byte not written", Fault::Given(last_byte_left)),
    ("a byte past the last changed", Fault::Given(byte_past_the_last)),
    ("nothing put where there is no room for all", Fault::Given(all_or_nothing)),
    ("the tally raised from what it held", Fault::Given(not_from_zeros)),
    ("the tally cleared for a refused book", Fault::Given(cleared)),
    ("the tally left as it was", Fault::Given(|asked, given| given.tally = asked.tally)),
    ("two numbers of the tally for each other", Fault::Given(swapped)),
    ("the working space cleared", Fault::Given(|_, given| given.work.fill(0))),
    ("a byte of the working space written for a refused book", Fault::Given(work_written)),
    ("a refused job written into the working space", Fault::Given(refused_job_written)),
];

fn last_byte_left(asked: &ReportCase, given: &mut Called) {
    if let Some(last) = given.put.checked_sub(1) {
        given.space[last] = asked.space[last];
    }
}

fn byte_past_the_last(_asked: &ReportCase, given: &mut Called) {
    if let Some(byte) = given.space.get_mut(given.put) {
        *byte = 0;
    }
}

fn all_or_nothing(asked: &ReportCase, given: &mut Called) {
    if given.put < right(asked).printed.len() {
        given.put = 0;
        given.space.copy_from_slice(&asked.space);
    }
}

fn is_refused(asked: &ReportCase) -> bool {
    known(asked).is_none()
}

fn not_from_zeros(asked: &ReportCase, given: &mut Called) {
    if !is_refused(asked) {
        let (held, raised) = (asked.tally.numbers(), given.tally.numbers());
        given.tally = Tally::of([0, 1, 2, 3].map(|place| held[place].wrapping_add(raised[place])));
    }
}

fn cleared(asked: &ReportCase, given: &mut Called) {
    if is_refused(asked) {
        given.tally = Tally::default();
    }
}

fn swapped(_asked: &ReportCase, given: &mut Called) {
    let [jobs, refused, bytes, lines] = given.tally.numbers();
    given.tally = Tally::of([refused, jobs, bytes, lines]);
}

fn work_written(asked: &ReportCase, given: &mut Called) {
    if is_refused(asked) {
        given.work[65_535] = 0;
    }
}

fn refused_job_written(asked: &ReportCase, given: &mut Called) {
    if known(asked).is_some_and(|jobs| jobs.iter().any(|known| known.answered.is_err())) {
        given.work[65_535] = 0;
    }
}
