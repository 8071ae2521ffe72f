//! The program between the readable form of a book of jobs and its bytes.

use command_line::{input, Failure, Program};
use job_text::book;
use std::fs;
use std::io::{BufWriter, Write};
use std::process::ExitCode;

const USAGE: &str =
    "usage: book of FORM... > BOOK       writes the book of the jobs whose readable forms these files hold
       book to-bytes < FORM > BOOK   writes the book that a readable form spells
       book to-text < BOOK > FORM    writes the readable form of a book
       book --help, book --version
The forms are described in examples/README.md. A fault gets a message with its line and column in bytes on
standard error and status 2, and nothing is written.";

const PROGRAM: Program = Program { name: "book", version: env!("CARGO_PKG_VERSION"), usage: USAGE };

fn main() -> ExitCode {
    PROGRAM.run(run)
}

fn run(arguments: &[&str], out: &mut dyn Write) -> Result<(), Failure> {
    match arguments {
        ["of", files @ ..] if !files.is_empty() => {
            let jobs = files.iter().map(|file| job(file)).collect::<Result<Vec<_>, String>>()?;
            Ok(out.write_all(&book::of(&jobs))?)
        }
        ["to-bytes"] => {
            let book = book::parse(&input()?).map_err(|fault| fault.to_string())?;
            Ok(out.write_all(&book)?)
        }
        ["to-text"] => {
            let book = input()?;
            let mut out = BufWriter::new(out);
            book::print(&book, &mut out)?;
            Ok(out.flush()?)
        }
        _ => Err(Failure::BadCall),
    }
}

/// The job whose readable form the file holds.
fn job(file: &str) -> Result<Vec<u8>, String> {
    let form = fs::read(file).map_err(|error| format!("{}: {error}", file.escape_debug()))?;
    job_text::parse(&form).map_err(|fault| format!("{}: {fault}", file.escape_debug()))
}
