//! Wrong lines and tallies for the jobs of a book that is not refused.

use super::{known, layouts, line, newlines, raised, right, total, Answered, Fault, Known};
use oracle::answers::Answer;
use oracle::report::{ReportCase, Reported, Tally};

/// No fault: the right report, worked out as those of the faults are.
pub const NONE: Fault = Fault::Report(|asked| over(asked, |answered| answered, raised, line, total));

pub const LINES: [(&str, Fault); 17] = [
    ("numbers from 0", Fault::Report(|asked| with_line(asked, |number, known| line(number - 1, known)))),
    ("no newline after a refused job", Fault::Report(|asked| with_line(asked, no_newline))),
    ("one line more", Fault::Report(|asked| with_answer(asked, one_line_more))),
    ("no last newline", Fault::Report(|asked| with_answer(asked, without_the_last_newline))),
    ("newlines of the job", Fault::Report(|asked| with_line(asked, newlines_of_the_job))),
    ("newlines of the text counted", Fault::Report(|asked| with_tally(asked, newlines_of_the_job_counted))),
    ("characters for bytes", Fault::Report(|asked| with_line(asked, characters))),
    ("refused jobs not counted as jobs", Fault::Report(|asked| with_tally(asked, accepted_alone))),
    ("refused jobs not counted", Fault::Report(|asked| with_tally(asked, no_refused))),
    ("bytes raised for a refused job", Fault::Report(|asked| with_tally(asked, places_counted))),
    ("lines raised for a refused job", Fault::Report(|asked| with_tally(asked, refused_lines_counted))),
    ("bytes and lines for each other", Fault::Report(|asked| with_total(asked, bytes_for_lines))),
    ("empty layouts refused", Fault::Report(|asked| with_answer(asked, refused_if_empty))),
    ("14 for a job of no byte left out", Fault::Report(|asked| with_line(asked, nothing_for_no_byte))),
    ("a layout above the buffer told by its length", Fault::Report(|asked| with_line(asked, bytes_for_13))),
    ("no total line", Fault::Report(|asked| with_total(asked, |_| String::new()))),
    ("no total line for an empty book", Fault::Report(nothing_for_nothing)),
];

/// The report over the jobs with another answer, tally, line or last line.
fn over(
    asked: &ReportCase,
    answered: fn(Answered) -> Answered,
    raise: fn(Tally, &Known) -> Tally,
    line: fn(u64, &Known) -> String,
    total: fn(Tally) -> String,
) -> Reported {
    let Some(mut jobs) = known(asked) else { return right(asked) };
    let layouts = layouts(&jobs);
    let (mut tally, mut printed) = (Tally::default(), String::new());
    for (number, known) in (1..).zip(&mut jobs) {
        known.answered = answered(known.answered.clone());
        tally = raise(tally, known);
        printed += &line(number, known);
    }
    Reported { printed: (printed + &total(tally)).into_bytes(), tally, layouts }
}

fn with_answer(asked: &ReportCase, answered: fn(Answered) -> Answered) -> Reported {
    over(asked, answered, raised, line, total)
}

fn with_line(asked: &ReportCase, line: fn(u64, &Known) -> String) -> Reported {
    over(asked, |answered| answered, raised, line, total)
}

fn with_tally(asked: &ReportCase, raise: fn(Tally, &Known) -> Tally) -> Reported {
    over(asked, |answered| answered, raise, line, total)
}

fn with_total(asked: &ReportCase, total: fn(Tally) -> String) -> Reported {
    over(asked, |answered| answered, raised, line, total)
}

fn no_newline(number: u64, known: &Known) -> String {
    let line = line(number, known);
    match known.answered {
        Ok(_) => line,
        Err(_) => line.trim_end().to_string(),
    }
}

fn one_line_more(answered: Answered) -> Answered {
    answered.map(|layout| [layout, b"\n".to_vec()].concat())
}

fn without_the_last_newline(answered: Answered) -> Answered {
    answered.map(|layout| layout.strip_suffix(b"\n").unwrap_or(&layout).to_vec())
}

fn refused_if_empty(answered: Answered) -> Answered {
    answered.and_then(|layout| if layout.is_empty() { Err(Answer { number: 12, second: 0 }) } else { Ok(layout) })
}

fn newlines_of_the_job(number: u64, known: &Known) -> String {
    match &known.answered {
        Ok(layout) => format!("{number} bytes {} lines {}\n", layout.len(), newlines(&known.job)),
        Err(_) => line(number, known),
    }
}

fn newlines_of_the_job_counted(tally: Tally, known: &Known) -> Tally {
    let lines = if known.answered.is_ok() { newlines(&known.job) } else { 0 };
    Tally { lines: tally.lines + lines, ..raised(tally, known) }
}

fn characters(number: u64, known: &Known) -> String {
    match &known.answered {
        Ok(layout) => {
            let count = std::str::from_utf8(layout).expect("a layout").chars().count();
            format!("{number} bytes {count} lines {}\n", newlines(layout))
        }
        Err(_) => line(number, known),
    }
}

fn accepted_alone(tally: Tally, known: &Known) -> Tally {
    match known.answered {
        Ok(_) => raised(tally, known),
        Err(_) => Tally { jobs: tally.jobs, ..raised(tally, known) },
    }
}

fn no_refused(tally: Tally, known: &Known) -> Tally {
    Tally { refused: 0, ..raised(tally, known) }
}

fn places_counted(tally: Tally, known: &Known) -> Tally {
    let more = known.answered.as_ref().map_or_else(|refusal| refusal.second, |_| 0);
    let tally = raised(tally, known);
    Tally { bytes: tally.bytes + more, ..tally }
}

fn refused_lines_counted(tally: Tally, known: &Known) -> Tally {
    let more = u64::from(known.answered.is_err());
    let tally = raised(tally, known);
    Tally { lines: tally.lines + more, ..tally }
}

fn bytes_for_lines(tally: Tally) -> String {
    total(Tally { bytes: tally.lines, lines: tally.bytes, ..tally })
}

fn nothing_for_no_byte(number: u64, known: &Known) -> String {
    match known.job.is_empty() {
        true => String::new(),
        false => line(number, known),
    }
}

fn bytes_for_13(number: u64, known: &Known) -> String {
    match known.answered {
        Err(Answer { number: 13, second }) => format!("{number} bytes {second} lines 1\n"),
        _ => line(number, known),
    }
}

fn nothing_for_nothing(asked: &ReportCase) -> Reported {
    let report = right(asked);
    match asked.book.is_empty() && asked.more == 0 {
        true => Reported { printed: Vec::new(), ..report },
        false => report,
    }
}
