//! Prints a job's layout with numbered lines, then each token with its line and column, to be read out by telephone.

use command_line::{Failure, Program};
use job_text::{quoted, Job};
use qdesk::{commands, layout_map_to_vec, Case, Command, Error, Kind, Mapped, Operands, Settings, Spot};
use std::io::{self, BufWriter, Read, Write};
use std::process::ExitCode;

const USAGE: &str =
    "usage: places < JOB   prints the layout with numbered lines, then each token with its line and column
       places --help, places --version
JOB is a job's bytes or its readable form (examples/README.md). Lines and columns count from 1, columns in bytes.
White space is left out; a token that is not in the layout, or only in a part copied as typed, has no place.";

const PROGRAM: Program = Program { name: "places", version: env!("CARGO_PKG_VERSION"), usage: USAGE };

/// The first byte of a job, which no readable form begins with.
const JOB: u8 = 0x10;

fn main() -> ExitCode {
    PROGRAM.run(|arguments, out| {
        arguments.is_empty().then_some(()).ok_or(Failure::BadCall)?;
        let job = job(&input()?)?;
        let mut out = BufWriter::new(out);
        print(&job, &mapped(&job)?, &mut out)?;
        Ok(out.flush()?)
    })
}

fn input() -> Result<Vec<u8>, String> {
    let mut bytes = Vec::new();
    io::stdin().read_to_end(&mut bytes).map_err(|error| format!("the input cannot be read: {error}"))?;
    Ok(bytes)
}

/// The job of these bytes, or of this form.
fn job(input: &[u8]) -> Result<Job, String> {
    if input.first() == Some(&JOB) {
        return Job::read(input).map_err(|fault| fault.to_string());
    }
    let bytes = job_text::parse(input).map_err(|fault| fault.to_string())?;
    Job::read(&bytes).map_err(|fault| fault.to_string())
}

fn mapped(job: &Job) -> Result<Mapped, String> {
    let (width, case) = job.settings();
    let settings = Settings { indent_width: u64::from(width), case: Case(u64::from(case)) };
    let tape = job.tape();
    layout_map_to_vec(job.text(), &tape, settings).map_err(|error| refused(error, &tape))
}

/// A refusal, and the node or token that it is about.
fn refused(error: Error, tape: &[u8]) -> String {
    error.command_in(tape).map_or(error.to_string(), |command| format!("{error}: {command}"))
}

fn print(job: &Job, mapped: &Mapped, out: &mut dyn Write) -> io::Result<()> {
    let lines: Vec<&[u8]> = mapped.layout.split_inclusive(|byte| *byte == b'\n').collect();
    let digits = lines.len().to_string().len();
    for (line, number) in lines.iter().zip(1..) {
        write!(out, "{number:>digits$}  ")?;
        out.write_all(line)?;
    }
    writeln!(out)?;
    let tape = job.tape();
    let rows: Vec<(String, String)> = tokens(&tape)
        .zip(&mapped.spots)
        .map(|(token, spot)| (token, &job.text()[token.start as usize..token.end as usize], spot))
        .filter(|(_, text, spot)| spot.is_some() || !is_white(text))
        .map(|(token, text, spot)| (place(*spot), format!("{:?} {}", kind(token), quoted(text))))
        .collect();
    let width = rows.iter().map(|(place, _)| place.len()).max().unwrap_or(0);
    rows.iter().try_for_each(|(place, token)| writeln!(out, "{place:<width$}  {token}"))
}

/// The tokens of an accepted tape in its order.
fn tokens(tape: &[u8]) -> impl Iterator<Item = Operands> + '_ {
    commands(tape).filter_map(|(_, command)| match command {
        Command::Token(token) => Some(token),
        _ => None,
    })
}

fn kind(token: Operands) -> Kind {
    token.named_kind().expect("8 refuses the others")
}

fn is_white(text: &[u8]) -> bool {
    std::str::from_utf8(text).is_ok_and(|text| text.trim().is_empty())
}

/// As it is said.
fn place(spot: Option<Spot>) -> String {
    spot.map_or("no place".to_string(), |Spot { line, column }| format!("line {line}, column {column}"))
}
