//! The readable form of a job and of a book of jobs, which examples/README.md describes, to bytes and back.

pub mod book;
mod job;
pub mod kinds;
mod line;
mod parse;
mod print;
mod quote;
mod spans;
mod visible;

pub use job::{HeaderFault, Job};
pub use line::Fault;
pub use quote::quoted;

use std::io::{self, Write};

/// The bytes of the job that a readable form spells.
pub fn parse(form: &[u8]) -> Result<Vec<u8>, Fault> {
    parse::job(form).map(|job| job.write())
}

/// The readable form of a job's bytes.
pub fn print(job: &[u8]) -> Result<String, HeaderFault> {
    let mut form = Vec::new();
    Job::read(job)?.print(&mut form).expect("memory takes what is written");
    Ok(String::from_utf8(form).expect("a form is made of whole characters"))
}

impl Job {
    /// Writes the readable form, which can be far longer than the job, in memory of a few times the job.
    pub fn print(&self, out: &mut dyn Write) -> io::Result<()> {
        print::form(self, out)
    }
}
