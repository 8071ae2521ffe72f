//! Times the port's map call beside its plain laying out, and beside what gives a map without that call, on the same queries, in one run.

use bench::corpora::{self, Corpus};
use bench::rounds::{least, Queries, Side};
use command_line::{Failure, Program};
use std::io::Write;
use std::process::ExitCode;

const USAGE: &str = "usage: map [--seed SEED] [--rounds ROUNDS] [CORPUS...]
           times the map call on the corpora, or on all but those of blanks; `format --list` prints the corpora
       map --help, map --version
layout is the plain call; search is that and a search of each token's text in the layout; recorder is the source's
routines over a tree that notes where each token is written; found says for how many of the tokens that are placed the
search finds their place";

/// The seed that the documents' table is made with.
const SEED: u64 = 1;
const ROUNDS: usize = 25;

/// Searching for nothing but blanks takes no time, and tells nothing.
const LEFT_OUT: &str = "blank-";

const PROGRAM: Program = Program { name: "map", version: env!("CARGO_PKG_VERSION"), usage: USAGE };

struct Asked {
    seed: u64,
    rounds: usize,
    corpora: Vec<&'static Corpus>,
}

fn main() -> ExitCode {
    PROGRAM.run(|words, out| {
        let asked = asked(words).ok_or(Failure::BadCall)?;
        bench::all_at_hand()?;
        table(&asked, out)
    })
}

/// None if the words are no call of this program.
fn asked(words: &[&str]) -> Option<Asked> {
    let mut asked = Asked { seed: SEED, rounds: ROUNDS, corpora: Vec::new() };
    let mut words = words.iter();
    while let Some(word) = words.next() {
        match *word {
            "--seed" => asked.seed = words.next()?.parse().ok()?,
            "--rounds" => asked.rounds = words.next()?.parse().ok().filter(|rounds| *rounds > 0)?,
            name => asked.corpora.push(corpora::named(name)?),
        }
    }
    if asked.corpora.is_empty() {
        asked.corpora = corpora::ALL.iter().filter(|corpus| !corpus.name.starts_with(LEFT_OUT)).collect();
    }
    Some(asked)
}

/// Prints a row for each corpus as soon as it is timed; the error is a query that the port maps unlike the oracle.
fn table(asked: &Asked, out: &mut dyn Write) -> Result<(), Failure> {
    writeln!(out, "seed {}, {} rounds, the least time of each side", asked.seed, asked.rounds)?;
    writeln!(out, "{:<14} | {:^21} | {:^31} | ", "", "the map call's ratio", "nanoseconds a token")?;
    writeln!(
        out,
        "{:<14} | {:>6} {:>6} {:>7} | {:>6} {:>6} {:>8} {:>8} | {:>6}",
        "corpus", "layout", "search", "recorder", "layout", "map", "search", "recorder", "found"
    )?;
    asked.corpora.iter().try_for_each(|corpus| row(asked, corpus, out))
}

fn row(asked: &Asked, corpus: &Corpus, out: &mut dyn Write) -> Result<(), Failure> {
    let mut queries = Queries::new((corpus.make)(asked.seed));
    let differs = |difference| Failure::Found(format!("{}, seed {}, {difference}", corpus.name, asked.seed));
    queries.compare_maps(&bench::layout_map).map_err(differs)?;
    let sides = [Side::Layout, Side::Map, Side::Searched, Side::Recorded];
    let [layout, map, searched, recorded] = least(&mut queries, sides, asked.rounds);
    let (right, placed) = queries.found();
    writeln!(
        out,
        "{:<14} | {:>6.2} {:>6.2} {:>8.2} | {:>6.1} {:>6.1} {:>8.1} {:>8.1} | {:>5.1}%",
        corpus.name,
        map / layout,
        map / searched,
        map / recorded,
        layout,
        map,
        searched,
        recorded,
        100.0 * right as f64 / placed as f64
    )?;
    Ok(())
}
