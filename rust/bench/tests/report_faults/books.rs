//! Books that are refused wrongly, or wrongly not.

use super::{refused, right, Fault};
use oracle::report::{first_job, jobs, report, write, ReportCase, Reported, MOST_BYTES, MOST_JOBS};

pub const BOOKS: [(&str, Fault); 11] = [
    ("more that follows is not looked at", Fault::Report(|asked| report(&asked.book, asked.tally))),
    ("a book of the most bytes refused", Fault::Report(most_bytes_refused)),
    ("the walk before the test of the length", Fault::Report(walk_before_length)),
    ("a long book cut", Fault::Report(long_book_cut)),
    ("19 before 18 at one offset", Fault::Report(nineteen_before_eighteen)),
    ("the 256th job refused", Fault::Report(last_job_refused)),
    ("a 257th job taken", Fault::Report(one_job_more)),
    ("a wrong command at its end", Fault::Report(|asked| place_moved(asked, |place| place + 5))),
    ("a cut command at the book's end", Fault::Report(cut_at_the_end)),
    ("the jobs before a fault reported", Fault::Report(jobs_before_a_fault)),
    ("a length that passes the end taken as what is left", Fault::Report(what_is_left)),
];

/// The whole jobs of a book from its start, and the offset of what follows them.
fn whole_jobs(book: &[u8]) -> (Vec<&[u8]>, usize) {
    let (mut jobs, mut rest) = (Vec::new(), book);
    while let Some((job, after)) = first_job(rest) {
        jobs.push(job);
        rest = after;
    }
    (jobs, book.len() - rest.len())
}

/// The place of the book's refusal of this number, if it is that one and not for its length.
fn place_of(asked: &ReportCase, number: u64) -> Option<usize> {
    let refusal = jobs(&asked.book).err().filter(|_| asked.more == 0 && asked.book.len() <= MOST_BYTES)?;
    (refusal.number == number).then_some(refusal.second as usize)
}

fn most_bytes_refused(asked: &ReportCase) -> Reported {
    match asked.book.len() == MOST_BYTES {
        true => refused(asked, 18, MOST_BYTES),
        false => right(asked),
    }
}

/// A book that is too long is refused at its first wrong command, where it has one.
fn walk_before_length(asked: &ReportCase) -> Reported {
    let (jobs, place) = whole_jobs(&asked.book);
    let is_long = asked.more == 0 && asked.book.len() > MOST_BYTES;
    match is_long && place < asked.book.len() && jobs.len() <= MOST_JOBS {
        true => refused(asked, 18, place),
        false => right(asked),
    }
}

fn long_book_cut(asked: &ReportCase) -> Reported {
    match asked.more == 0 && asked.book.len() > MOST_BYTES {
        true => report(&asked.book[..MOST_BYTES], asked.tally),
        false => right(asked),
    }
}

fn nineteen_before_eighteen(asked: &ReportCase) -> Reported {
    let place = place_of(asked, 18).filter(|_| whole_jobs(&asked.book).0.len() == MOST_JOBS);
    place.map_or_else(|| right(asked), |place| refused(asked, 19, place))
}

fn last_job_refused(asked: &ReportCase) -> Reported {
    let (jobs, _) = whole_jobs(&asked.book);
    let is_due = asked.more == 0 && asked.book.len() <= MOST_BYTES && jobs.len() >= MOST_JOBS;
    match is_due {
        true => refused(asked, 19, write(&jobs[..MOST_JOBS - 1]).len()),
        false => right(asked),
    }
}

fn one_job_more(asked: &ReportCase) -> Reported {
    match place_of(asked, 19) {
        Some(place) => report(&asked.book[..place], asked.tally),
        None => right(asked),
    }
}

fn place_moved(asked: &ReportCase, moved: fn(usize) -> usize) -> Reported {
    place_of(asked, 18).map_or_else(|| right(asked), |place| refused(asked, 18, moved(place)))
}

fn cut_at_the_end(asked: &ReportCase) -> Reported {
    let place = place_of(asked, 18).filter(|place| asked.book[*place] == 0x20);
    place.map_or_else(|| right(asked), |_| refused(asked, 18, asked.book.len()))
}

/// The lines of the jobs before a wrong command, and then the refusal.
fn jobs_before_a_fault(asked: &ReportCase) -> Reported {
    let Some(place) = place_of(asked, 18) else { return right(asked) };
    let before = report(&asked.book[..place], asked.tally).printed;
    let last = before.iter().rev().skip(1).position(|byte| *byte == 10).map_or(0, |back| before.len() - 1 - back);
    let refusal = refused(asked, 18, place);
    Reported { printed: [&before[..last], &refusal.printed].concat(), ..refusal }
}

fn what_is_left(asked: &ReportCase) -> Reported {
    match place_of(asked, 18) {
        Some(place) if asked.book[place] == 0x20 && asked.book.len() >= place + 5 => {
            let (mut jobs, _) = whole_jobs(&asked.book);
            jobs.push(&asked.book[place + 5..]);
            report(&write(&jobs), asked.tally)
        }
        _ => right(asked),
    }
}
