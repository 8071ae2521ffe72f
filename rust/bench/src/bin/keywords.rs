//! Times what it costs to learn a word's sort: the source's two tests one after the other, and the port's one answer, on the same words in
//! one run.

use command_line::{Failure, Program};
use oracle::random::Random;
use oracle::source;
use std::hint::black_box;
use std::io::{self, Write};
use std::process::ExitCode;
use std::time::Instant;

const USAGE: &str =
    "usage: keywords   prints what it costs on both sides to learn a word's sort, in nanoseconds; takes no argument";

/// Names as queries have them, of many lengths.
const NAMES: &str =
    "a b t id ts x1 url sum max uid name date hits city count price total event users toDate orders status user_id \
    country uniqExact quantile event_id order_id sessions browser duration arrayJoin event_time page_views \
    created_at groupArray toStartOfDay customer_id toYYYYMMDD event_date user_agent temperature is_mobile \
    referer_domain toStartOfInterval search_phrase watch_id_column total_amount_eur";

/// Few enough that text and words stay in the nearest cache.
const WORDS: usize = 1024;
const PASSES: usize = 64;
const ROUNDS: usize = 31;

const PROGRAM: Program = Program { name: "keywords", version: env!("CARGO_PKG_VERSION"), usage: USAGE };

fn main() -> ExitCode {
    PROGRAM.run(|arguments, out| {
        arguments.is_empty().then_some(()).ok_or(Failure::BadCall)?;
        bench::all_at_hand()?;
        Ok(print_times(out)?)
    })
}

fn print_times(out: &mut dyn Write) -> io::Result<()> {
    let mut random = Random::of(1, 0, 0);
    let texts = [
        ("listed words", text(|| keyword(&mut random))),
        ("names", text(|| name(&mut random))),
        ("half and half", text(|| if random.percent(50) { keyword(&mut random) } else { name(&mut random) })),
    ];
    writeln!(out, "{:<14} {:>10} {:>9} {:>6}", "words", "source ns", "port ns", "ratio")?;
    texts.iter().try_for_each(|(label, text)| row(out, label, text))
}

/// A text of so many words, each followed by a blank.
fn text(mut word: impl FnMut() -> String) -> String {
    (0..WORDS).map(|_| word() + " ").collect()
}

/// An entry of the list, in small letters or in capitals.
fn keyword(random: &mut Random) -> String {
    let word = random.pick(source::keywords());
    if random.percent(50) {
        word.to_lowercase()
    } else {
        word.to_string()
    }
}

fn name(random: &mut Random) -> String {
    let names: Vec<&str> = NAMES.split(' ').collect();
    random.pick(&names).to_string()
}

/// Prints the median of the rounds of each side, which take turns.
fn row(out: &mut dyn Write, label: &str, text: &str) -> io::Result<()> {
    let words: Vec<&str> = text.split_terminator(' ').collect();
    let mut times = [Vec::new(), Vec::new()];
    for _ in 0..ROUNDS {
        times[0].push(time(&words, two_tests));
        times[1].push(time(&words, |word| bench::word(word.as_bytes())));
    }
    let [source, port] = times.map(bench::median);
    writeln!(out, "{label:<14} {source:>10.1} {port:>9.1} {:>6.1}", source / port)
}

/// What tells the sorts apart with the source: whether a word is listed and, if so, whether it is a value. Its place is not found so.
fn two_tests(word: &str) -> (bool, bool) {
    let listed = source::is_keyword(word);
    (listed, listed && source::is_value_keyword(word))
}

/// Nanoseconds for a word.
fn time<T>(words: &[&str], test: impl Fn(&str) -> T) -> f64 {
    let start = Instant::now();
    for _ in 0..PASSES {
        for word in words {
            black_box(test(black_box(word)));
        }
    }
    start.elapsed().as_nanos() as f64 / (PASSES * words.len()) as f64
}
