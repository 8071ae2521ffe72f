//! A book of jobs, and its readable form: the jobs' forms one below the other.

use crate::job::Job;
use crate::line::{Fault, Line};
use crate::parse::{bytes as spelt_bytes, job as spelt_job};
use crate::print::byte_lines;
use std::io::{self, Write};

const COMMAND: u8 = 0x20;

/// The book of these jobs.
pub fn of<T: AsRef<[u8]>>(jobs: &[T]) -> Vec<u8> {
    let mut book = Vec::new();
    jobs.iter().for_each(|job| push(&mut book, job.as_ref()));
    book
}

fn push(book: &mut Vec<u8>, job: &[u8]) {
    book.push(COMMAND);
    book.extend((job.len() as u32).to_le_bytes());
    book.extend(job);
}

/// The first job of a book and what follows it; none where no whole command stands there.
fn first_job(book: &[u8]) -> Option<(&[u8], &[u8])> {
    match book {
        [COMMAND, a, b, c, d, rest @ ..] => rest.split_at_checked(u32::from_le_bytes([*a, *b, *c, *d]) as usize),
        _ => None,
    }
}

/// Writes a book's readable form.
pub fn print(book: &[u8], out: &mut dyn Write) -> io::Result<()> {
    let mut rest = book;
    while let Some((job, after)) = first_job(rest) {
        if rest.len() < book.len() {
            writeln!(out)?;
        }
        writeln!(out, "job")?;
        print_job(job, out)?;
        rest = after;
    }
    if (1..book.len()).contains(&rest.len()) {
        writeln!(out)?;
    }
    byte_lines("end", rest).try_for_each(|line| writeln!(out, "{line}"))
}

/// A job's form, or its bytes where its header is not whole.
fn print_job(job: &[u8], out: &mut dyn Write) -> io::Result<()> {
    match Job::read(job) {
        Ok(job) => job.print(out),
        Err(_) if job.is_empty() => writeln!(out, "bytes"),
        Err(_) => byte_lines("bytes", job).try_for_each(|line| writeln!(out, "{line}")),
    }
}

/// The bytes of the book that a readable form spells.
pub fn parse(form: &[u8]) -> Result<Vec<u8>, Fault> {
    let mut book = Vec::new();
    for part in parts(form)? {
        match part.is_end() {
            true => book.extend(part.end()?),
            false => push(&mut book, &part.job()?),
        }
    }
    Ok(book)
}

/// A line at the margin that begins with `job` or `end`, and what stands below it up to the next.
struct Part<'a> {
    number: usize,
    head: Line<'a>,
    below: &'a [u8],
}

fn parts(form: &[u8]) -> Result<Vec<Part<'_>>, Fault> {
    let mut parts: Vec<Part> = Vec::new();
    let mut end = 0;
    for (number, bytes) in (1..).zip(form.split_inclusive(|byte| *byte == b'\n')) {
        end += bytes.len();
        let line = Line::new(number, bytes.strip_suffix(b"\n").unwrap_or(bytes))?;
        let is_end = line.place() == 0 && line.word() == "end";
        let is_head = is_end || (line.place() == 0 && line.word() == "job");
        match parts.last_mut() {
            Some(part) if part.is_end() && !is_end && !line.is_at_end() => {
                return Err(line.fault("only end at the margin may follow end"));
            }
            None if !line.is_at_end() && !is_head => return Err(line.fault("expected job or end")),
            _ if is_head => parts.push(Part { number, head: line, below: &form[end..end] }),
            Some(part) => part.below = &form[end - part.below.len() - bytes.len()..end],
            None => {}
        }
    }
    Ok(parts)
}

impl Part<'_> {
    fn is_end(&self) -> bool {
        self.head.word() == "end"
    }

    fn job(mut self) -> Result<Vec<u8>, Fault> {
        self.head.expect("job")?;
        self.head.end()?;
        let in_the_book = |fault: Fault| Fault { line: fault.line + self.number, ..fault };
        match spelt_bytes(self.below).map_err(in_the_book)? {
            Some(bytes) => Ok(bytes),
            None => spelt_job(self.below).map(|job| job.write()).map_err(in_the_book),
        }
    }

    fn end(mut self) -> Result<Vec<u8>, Fault> {
        self.head.expect("end")?;
        self.head.hexadecimal()
    }
}
