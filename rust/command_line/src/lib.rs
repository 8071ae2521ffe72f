//! What the programs of the workspace do alike: arguments, `--help` and `--version`, input, output that is not lost, messages and statuses.

pub mod rules;

use std::ffi::OsString;
use std::io::{self, Read, Write};
use std::process::ExitCode;

/// A program, as its `--help` and its messages name it.
pub struct Program {
    pub name: &'static str,
    pub version: &'static str,
    pub usage: &'static str,
}

/// Why a program did not do its work.
pub enum Failure {
    /// The arguments are no call of the program. Status 2.
    BadCall,
    /// An argument or the input can't be used, or something that the program needs is missing. Status 2.
    Refused(String),
    /// The work was done and found a fault. Status 1.
    Found(String),
    /// The output can't be written. Status 1.
    NotWritten(io::Error),
}

impl From<String> for Failure {
    fn from(message: String) -> Failure {
        Failure::Refused(message)
    }
}

/// Of what a program does with files, only writing its output fails in this way: it reads its input with a message of its own.
impl From<io::Error> for Failure {
    fn from(error: io::Error) -> Failure {
        Failure::NotWritten(error)
    }
}

impl Program {
    /// Does the work that the arguments ask for; what `work` writes is on standard output, whole, or the status tells.
    pub fn run(&self, work: impl FnOnce(&[&str], &mut dyn Write) -> Result<(), Failure>) -> ExitCode {
        let mut out = io::stdout().lock();
        let done = self.answer(work, &mut out).and_then(|()| Ok(out.flush()?));
        let Err(failure) = done else { return ExitCode::SUCCESS };
        let (status, message) = self.told(failure);
        // Where standard error can't be written either, the status alone tells.
        let _ = writeln!(io::stderr(), "{}: {message}", self.name);
        ExitCode::from(status)
    }

    fn answer(
        &self,
        work: impl FnOnce(&[&str], &mut dyn Write) -> Result<(), Failure>,
        out: &mut dyn Write,
    ) -> Result<(), Failure> {
        let arguments = std::env::args_os().skip(1).zip(1..).map(text).collect::<Result<Vec<String>, String>>()?;
        let arguments: Vec<&str> = arguments.iter().map(String::as_str).collect();
        match arguments[..] {
            ["--help"] => Ok(writeln!(out, "{}", self.usage)?),
            ["--version"] => Ok(writeln!(out, "{} {}", self.name, self.version)?),
            _ => work(&arguments, out),
        }
    }

    fn told(&self, failure: Failure) -> (u8, String) {
        match failure {
            Failure::BadCall => (2, self.usage.to_string()),
            Failure::Refused(message) => (2, message),
            Failure::Found(message) => (1, message),
            Failure::NotWritten(error) => (1, format!("standard output can't be written: {error}")),
        }
    }
}

/// All of standard input.
pub fn input() -> Result<Vec<u8>, String> {
    let mut bytes = Vec::new();
    io::stdin().read_to_end(&mut bytes).map_err(|error| format!("the input cannot be read: {error}"))?;
    Ok(bytes)
}

fn text((argument, place): (OsString, usize)) -> Result<String, String> {
    argument.into_string().map_err(|argument| format!("argument {place} is not UTF-8: {argument:?}"))
}
