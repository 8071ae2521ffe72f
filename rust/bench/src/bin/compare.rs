//! Holds the port to the oracle on many cases: for runs that are too long for the tests.

use bench::compare::{compare, CLASSES};
use command_line::{Failure, Program};
use oracle::cases::Class;
use std::io::Write;
use std::process::ExitCode;

const USAGE: &str = "usage: compare SEED COUNT CLASS...   compares the cases 0 to COUNT-1 of the classes
       compare SEED COUNT            the same for all classes that make calls or books; of limits, utf8-limits, map-limits
                                     and books-limits, whose cases are as long as a thousand others, a thousandth of
                                     COUNT, rounded up
       compare --help, compare --version
COUNT is at least 1";

/// The classes that a run over all of them takes fewer cases of.
const LONG: [Class; 4] = [Class::Limits, Class::Utf8Limits, Class::MapLimits, Class::BooksLimits];

const PROGRAM: Program = Program { name: "compare", version: env!("CARGO_PKG_VERSION"), usage: USAGE };

fn main() -> ExitCode {
    PROGRAM.run(run)
}

fn run(arguments: &[&str], out: &mut dyn Write) -> Result<(), Failure> {
    let (seed, classes) = call(arguments).ok_or(Failure::BadCall)?;
    bench::all_at_hand()?;
    for (class, count) in classes {
        (0..count).try_for_each(|index| compare(seed, class, index)).map_err(Failure::Found)?;
        writeln!(out, "{class:?}: {count} cases agree")?;
    }
    Ok(())
}

/// The seed, and how many cases of which class, if the words are such.
fn call(words: &[&str]) -> Option<(u64, Vec<(Class, u64)>)> {
    let [seed, count, names @ ..] = words else { return None };
    let count: u64 = count.parse().ok().filter(|count| *count > 0)?;
    let classes = match names {
        [] => CLASSES.map(|class| (class, if LONG.contains(&class) { count.div_ceil(1000) } else { count })).to_vec(),
        _ => names.iter().map(|name| named(name).map(|class| (class, count))).collect::<Option<_>>()?,
    };
    Some((seed.parse().ok()?, classes))
}

fn named(name: &str) -> Option<Class> {
    Class::named(name).filter(|class| CLASSES.contains(class))
}
