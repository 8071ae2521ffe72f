//! The program between a job's readable form and its bytes, on standard input and output.

use command_line::{input, Failure, Program};
use job_text::Job;
use std::io::{BufWriter, Write};
use std::process::ExitCode;

const USAGE: &str = "usage: job to-bytes < FORM > JOB   writes the job that a readable form spells
       job to-text < JOB > FORM    writes the readable form of a job
       job --help, job --version
The form is described in examples/README.md. A fault gets a message with its line and column in bytes,
or with the job's byte, on standard error and status 2, and nothing is written.";

const PROGRAM: Program = Program { name: "job", version: env!("CARGO_PKG_VERSION"), usage: USAGE };

fn main() -> ExitCode {
    PROGRAM.run(run)
}

fn run(arguments: &[&str], out: &mut dyn Write) -> Result<(), Failure> {
    match arguments {
        ["to-bytes"] => {
            let job = job_text::parse(&input()?).map_err(|fault| fault.to_string())?;
            Ok(out.write_all(&job)?)
        }
        ["to-text"] => {
            let job = Job::read(&input()?).map_err(|fault| fault.to_string())?;
            let mut out = BufWriter::new(out);
            job.print(&mut out)?;
            Ok(out.flush()?)
        }
        _ => Err(Failure::BadCall),
    }
}
