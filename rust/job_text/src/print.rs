//! From a job to its readable form.

use crate::job::{Command, Job, Operands};
use crate::kinds;
use crate::quote::quoted;
use crate::spans::{worked_out, Span};
use std::io::{self, Write};

/// Bytes of a line that spells bytes.
const BYTES_OF_A_LINE: usize = 16;

/// Writes a job's readable form line by line. It can be far longer than the job: levels are indented, and texts of tokens may overlap.
pub fn form(job: &Job, out: &mut dyn Write) -> io::Result<()> {
    let mut printer = Printer { job, out, depth: 0, end: 0 };
    printer.settings()?;
    if !tokens_make_text(job) {
        printer.text()?;
    }
    if !job.tape.is_empty() || !job.rest.is_empty() {
        printer.line("")?;
    }
    for (command, span) in job.tape.iter().zip(worked_out(&job.tape, &job.text)) {
        printer.command(command, span)?;
    }
    printer.rest()
}

/// Whether the tokens' texts in their order are the text, so that it need not be given.
fn tokens_make_text(job: &Job) -> bool {
    let mut end = 0;
    for token in job.tokens() {
        if token.start != end || token.text_in(&job.text).is_none() {
            return false;
        }
        end = token.end;
    }
    end as usize == job.text.len()
}

struct Printer<'a> {
    job: &'a Job,
    out: &'a mut dyn Write,
    /// The nodes open.
    depth: usize,
    /// The end of the last token with a text, where the next one is expected.
    end: u32,
}

impl Printer<'_> {
    fn line(&mut self, line: &str) -> io::Result<()> {
        if !line.is_empty() {
            self.indent()?;
        }
        writeln!(self.out, "{line}")
    }

    fn indent(&mut self) -> io::Result<()> {
        (0..self.depth).try_for_each(|_| self.out.write_all(b"  "))
    }

    fn settings(&mut self) -> io::Result<()> {
        self.line(&format!("width {}", self.job.width))?;
        match self.job.case {
            0 => self.line("case lower"),
            1 => self.line("case upper"),
            other => self.line(&format!("case {other}")),
        }
    }

    /// The text, a line for each of its lines.
    fn text(&mut self) -> io::Result<()> {
        if self.job.text.is_empty() {
            self.line("text \"\"")?;
        }
        let mut lines = self.job.text.split_inclusive(|byte| *byte == b'\n');
        lines.try_for_each(|part| self.line(&format!("text {}", quoted(part))))
    }

    fn command(&mut self, command: &Command, worked_out: Span) -> io::Result<()> {
        match command {
            Command::Open(node) => self.open(node, worked_out),
            Command::Token(token) => self.token(token),
            Command::Close if self.depth == 0 => self.line("close"),
            Command::Close => {
                self.depth -= 1;
                Ok(())
            }
        }
    }

    fn open(&mut self, node: &Operands, worked_out: Span) -> io::Result<()> {
        if worked_out == (node.start, node.end) {
            self.line(&kind(node))?;
        } else {
            self.line(&format!("{} {}", kind(node), span(node)))?;
        }
        self.depth += 1;
        Ok(())
    }

    fn token(&mut self, token: &Operands) -> io::Result<()> {
        let Some(text) = token.text_in(&self.job.text) else {
            return self.line(&format!("token {} {}", kind(token), span(token)));
        };
        let place = if token.start == self.end { String::new() } else { format!(" at {}", token.start) };
        self.end = token.end;
        self.line(&format!("{} {}{place}", kind(token), quoted(text)))
    }

    /// The bytes that are no commands, or nothing behind nodes that stay open.
    fn rest(&mut self) -> io::Result<()> {
        if self.depth > 0 && self.job.rest.is_empty() {
            self.line("rest")?;
        }
        byte_lines("rest", &self.job.rest).try_for_each(|line| self.line(&line))
    }
}

/// The lines that spell these bytes behind a word; none for no byte.
pub fn byte_lines<'a>(word: &'a str, bytes: &'a [u8]) -> impl Iterator<Item = String> + 'a {
    let digits = |part: &[u8]| part.iter().map(|byte| format!(" {byte:02X}")).collect::<String>();
    bytes.chunks(BYTES_OF_A_LINE).map(move |part| format!("{word}{}", digits(part)))
}

fn kind(operands: &Operands) -> String {
    kinds::name(operands.kind).map_or(format!("kind {}", operands.kind), str::to_string)
}

fn span(operands: &Operands) -> String {
    format!("{} to {}", operands.start, operands.end)
}
