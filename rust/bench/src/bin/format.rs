//! Times the port's laying out from the tape beside the source's `format`, on the same queries, in one run.

use bench::corpora::{self, Corpus};
use bench::rounds::{least_times, Queries, Side};
use command_line::{Failure, Program};
use std::io::{self, Write};
use std::process::ExitCode;

const USAGE: &str = "usage: format [--seed SEED] [--rounds ROUNDS] [CORPUS...]
           times the corpora, or all; another seed makes other queries
       format [--seed SEED] --once SIDE CORPUS
           runs a corpus once on one side with no clock, for a profiler, and prints how many tokens and tape bytes it has;
           SIDE is ready-tree, from-tape, layout, no-space (the call with an output space of 0 bytes) or map
       format --list
           prints the corpora
       format --help, format --version";

/// The seed that the documents' table is made with.
const SEED: u64 = 1;
const ROUNDS: usize = 25;

/// What the words of the command line ask for.
enum Asked {
    Table { seed: u64, rounds: usize, corpora: Vec<&'static Corpus> },
    Once { seed: u64, side: Side, corpus: &'static Corpus },
    List,
}

const PROGRAM: Program = Program { name: "format", version: env!("CARGO_PKG_VERSION"), usage: USAGE };

fn main() -> ExitCode {
    PROGRAM.run(run)
}

fn run(words: &[&str], out: &mut dyn Write) -> Result<(), Failure> {
    let asked = asked(words).ok_or(Failure::BadCall)?;
    bench::all_at_hand()?;
    match asked {
        Asked::List => Ok(list(out)?),
        Asked::Once { seed, side, corpus } => Ok(once(seed, side, corpus, out)?),
        Asked::Table { seed, rounds, corpora } => table(seed, rounds, &corpora, out),
    }
}

/// None if the words are no call of this program.
fn asked(words: &[&str]) -> Option<Asked> {
    if words == ["--list"] {
        return Some(Asked::List);
    }
    let (mut seed, mut rounds, mut side, mut names) = (SEED, None, None, Vec::new());
    let mut words = words.iter();
    while let Some(word) = words.next() {
        match *word {
            "--seed" => seed = words.next()?.parse().ok()?,
            "--rounds" => rounds = Some(words.next()?.parse().ok().filter(|rounds| *rounds > 0)?),
            "--once" => side = Some(side_named(words.next()?)?),
            name => names.push(corpora::named(name)?),
        }
    }
    let rounds_or_default = rounds.unwrap_or(ROUNDS);
    match (side, rounds, &names[..]) {
        (Some(side), None, [corpus]) => Some(Asked::Once { seed, side, corpus }),
        (Some(_), _, _) => None,
        (None, _, []) => Some(Asked::Table { seed, rounds: rounds_or_default, corpora: corpora::ALL.iter().collect() }),
        (None, _, _) => Some(Asked::Table { seed, rounds: rounds_or_default, corpora: names }),
    }
}

fn side_named(name: &str) -> Option<Side> {
    match name {
        "ready-tree" => Some(Side::ReadyTree),
        "from-tape" => Some(Side::FromTape),
        "layout" => Some(Side::Layout),
        "no-space" => Some(Side::NoSpace),
        "map" => Some(Side::Map),
        _ => None,
    }
}

fn list(out: &mut dyn Write) -> io::Result<()> {
    corpora::ALL.iter().try_for_each(|corpus| writeln!(out, "{:<14} {}", corpus.name, corpus.label))
}

fn once(seed: u64, side: Side, corpus: &Corpus, out: &mut dyn Write) -> io::Result<()> {
    let mut queries = Queries::new((corpus.make)(seed));
    queries.once(side);
    writeln!(out, "{} tokens, {} tape bytes", queries.tokens, queries.tape_bytes())
}

/// Prints a row for each corpus as soon as it is timed; the error is a query that the port lays out unlike the source.
fn table(seed: u64, rounds: usize, corpora: &[&Corpus], out: &mut dyn Write) -> Result<(), Failure> {
    writeln!(
        out,
        "seed {seed}, {rounds} rounds, the least time of each side; a ratio above 1 says that the port is faster"
    )?;
    writeln!(out, "{:<14} {:>7} {:>8} | {:^22} | {:^26}", "", "", "", "the source's time over", "nanoseconds a token")?;
    writeln!(
        out,
        "{:<14} {:>7} {:>8} | {:>10} {:>11} | {:>10} {:>9} {:>5}",
        "corpus", "queries", "tokens", "ready tree", "from tape", "ready tree", "from tape", "port"
    )?;
    corpora.iter().try_for_each(|corpus| row(seed, rounds, corpus, out))
}

fn row(seed: u64, rounds: usize, corpus: &Corpus, out: &mut dyn Write) -> Result<(), Failure> {
    let mut queries = Queries::new((corpus.make)(seed));
    let differs = |difference| Failure::Found(format!("{}, seed {seed}, {difference}", corpus.name));
    queries.compare(bench::layout).map_err(differs)?;
    let times = least_times(&mut queries, rounds);
    writeln!(
        out,
        "{:<14} {:>7} {:>8} | {:>10.2} {:>11.2} | {:>10.1} {:>9.1} {:>5.1}",
        corpus.name,
        queries.count(),
        queries.tokens,
        times.ready_tree / times.port,
        times.from_tape / times.port,
        times.ready_tree,
        times.from_tape,
        times.port
    )?;
    Ok(())
}
