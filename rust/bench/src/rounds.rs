//! The rounds of the benchmarks of laying out: several sides on the same queries, in turns, and the least time of each.

use crate::compare::map::{in_spaces, MapCall};
use crate::corpora::tokens;
use crate::search::searched;
use oracle::answers::{accepted_tree, formatted, Answer, Case};
use oracle::map::{self, with_exact_spaces};
use oracle::source;
use oracle::tape::Node;
use oracle::text::accepted;
use std::hint::black_box;
use std::ops::Range;
use std::time::Instant;

/// What is timed.
#[derive(Clone, Copy)]
pub enum Side {
    /// The source's `format` on its own tree and a `&str`, both made beforehand.
    ReadyTree,
    /// The oracle's reading of text and tape, with all refusals, then the source's `format`.
    FromTape,
    /// The port's laying out: check, finding the length, and writing.
    Layout,
    /// The port's call with an output space of 0 bytes, which finds the length and writes nothing; no table has it; for a profiler.
    NoSpace,
    /// The port's laying out with a map.
    Map,
    /// What gives a map without that call: the port's laying out, and a search of each token's text in the layout.
    Searched,
    /// The source's routines over a tree and a context that note where each token is written: the tree made, laid out, lines counted.
    Recorded,
}

/// The sides that take turns.
const SIDES: [Side; 3] = [Side::ReadyTree, Side::FromTape, Side::Layout];

/// Tokens of a batch, at least: long enough for the clock, short enough to be left alone by the machine's other work now and then.
const BATCH_TOKENS: usize = 10_000;

/// What the source takes: its own tree, and a text that is known to be well-formed; and the tree that the recorder's is made from.
struct Ready {
    root: Node,
    tree: source::Tree,
    text: String,
}

impl Ready {
    fn of(case: &Case) -> Ready {
        let root = accepted_tree(case).expect("accepted");
        Ready { tree: source::tree(&root), root, text: accepted(&case.text).to_string() }
    }
}

/// Queries, and what the sides need beforehand.
pub struct Queries {
    cases: Vec<Case>,
    ready: Vec<Ready>,
    out: Vec<u8>,
    map: Vec<u64>,
    pub tokens: usize,
}

impl Queries {
    pub fn new(cases: Vec<Case>) -> Queries {
        let ready = cases.iter().map(Ready::of).collect();
        let longest = cases.iter().map(|case| formatted(case).expect("accepted").len()).max();
        let most = cases.iter().map(|case| tokens(case).len()).max();
        let tokens = cases.iter().map(|case| tokens(case).len()).sum();
        let (out, map) = (vec![0; longest.unwrap_or(0)], vec![0; 2 * most.unwrap_or(0)]);
        Queries { cases, ready, out, map, tokens }
    }

    /// Holds what lays out to the source on every query; the error names the first that differs.
    pub fn compare(&self, layout: Layout) -> Result<(), String> {
        let differs = |number, difference| format!("query {number}: {difference}");
        let mut cases = self.cases.iter().enumerate();
        cases.try_for_each(|(number, case)| compare(layout, case).map_err(|difference| differs(number, difference)))
    }

    /// Holds a map call to the oracle on every query; the error names the first that differs.
    pub fn compare_maps(&self, call: &impl MapCall) -> Result<(), String> {
        let differs = |number, difference| format!("query {number}: {difference}");
        let mapped = |case: &Case| in_spaces(&with_exact_spaces(case.clone()), call);
        let mut cases = self.cases.iter().enumerate();
        cases.try_for_each(|(number, case)| mapped(case).map_err(|difference| differs(number, difference)))
    }

    /// The tokens for which the search finds what the map has, and all tokens that the map places.
    pub fn found(&self) -> (usize, usize) {
        let (mut right, mut placed) = (0, 0);
        for (case, ready) in self.cases.iter().zip(&self.ready) {
            let layout = map::Layout::recorded(&ready.text, &ready.root, case);
            let (numbers, found) = (layout.numbers(), searched(case, layout.output.as_bytes()));
            let pairs = numbers.chunks(2).zip(found.chunks(2)).filter(|(place, _)| *place != [0, 0]);
            pairs.for_each(|(place, found)| {
                placed += 1;
                right += usize::from(place == found);
            });
        }
        (right, placed)
    }

    pub fn count(&self) -> usize {
        self.cases.len()
    }

    pub fn tape_bytes(&self) -> usize {
        self.cases.iter().map(|case| case.tape.len()).sum()
    }

    /// Every query once on one side.
    pub fn once(&mut self, side: Side) {
        self.run(side, 0..self.cases.len());
    }

    /// Some of the queries on one side; what it gives is dropped.
    fn run(&mut self, side: Side, queries: Range<usize>) {
        let cases = &self.cases[queries.clone()];
        match side {
            Side::ReadyTree => cases.iter().zip(&self.ready[queries]).for_each(|(case, ready)| ready_tree(case, ready)),
            Side::FromTape => cases.iter().for_each(from_tape),
            Side::Layout => cases.iter().for_each(|case| layout(case, &mut self.out)),
            Side::NoSpace => cases.iter().for_each(no_space),
            Side::Map => cases.iter().for_each(|case| layout_map(case, &mut self.out, &mut self.map)),
            Side::Searched => cases.iter().for_each(|case| layout_searched(case, &mut self.out)),
            Side::Recorded => cases.iter().zip(&self.ready[queries]).for_each(|(case, ready)| recorded(case, ready)),
        }
    }

    /// The queries in batches of so many tokens.
    fn batches(&self) -> Vec<Range<usize>> {
        let mut batches = Vec::new();
        let (mut start, mut sum) = (0, 0);
        for (number, case) in self.cases.iter().enumerate() {
            sum += tokens(case).len();
            if sum >= BATCH_TOKENS || number + 1 == self.cases.len() {
                batches.push(start..number + 1);
                (start, sum) = (number + 1, 0);
            }
        }
        batches
    }
}

/// A function like the port's laying out.
pub type Layout = fn(&[u8], &[u8], u64, u64, &mut [u8]) -> Answer;

/// Byte for byte, in a space of just the layout's length.
fn compare(layout: Layout, case: &Case) -> Result<(), String> {
    let expected = formatted(case).expect("accepted");
    let mut out = vec![0xAA; expected.len()];
    let answer = layout(&case.text, &case.tape, case.width, case.case, &mut out);
    if answer.number != 0 || answer.second != expected.len() as u64 {
        return Err(format!("the port answers {answer:?}, and the layout has {} bytes", expected.len()));
    }
    if out != expected.as_bytes() {
        return Err("the port's layout is not the source's".to_string());
    }
    Ok(())
}

// A profiler finds the sides by the names of these functions.

#[inline(never)]
fn ready_tree(case: &Case, Ready { tree, text, .. }: &Ready) {
    black_box(source::format_tree(black_box(tree), case.width as usize, case.case == 1, text));
}

#[inline(never)]
fn from_tape(case: &Case) {
    black_box(formatted(black_box(case)).expect("accepted"));
}

#[inline(never)]
fn layout(case: &Case, out: &mut [u8]) {
    black_box(crate::layout(black_box(&case.text), &case.tape, case.width, case.case, out));
}

#[inline(never)]
fn no_space(case: &Case) {
    layout(case, &mut []);
}

#[inline(never)]
fn layout_map(case: &Case, out: &mut [u8], map: &mut [u64]) {
    black_box(crate::layout_map(black_box(&case.text), &case.tape, case.width, case.case, out, map));
}

#[inline(never)]
fn layout_searched(case: &Case, out: &mut [u8]) {
    let answer = crate::layout(black_box(&case.text), &case.tape, case.width, case.case, out);
    black_box(searched(case, &out[..answer.second as usize]));
}

#[inline(never)]
fn recorded(case: &Case, Ready { root, text, .. }: &Ready) {
    black_box(map::Layout::recorded(black_box(text), root, case).numbers());
}

/// Nanoseconds for a token.
pub struct Times {
    pub ready_tree: f64,
    pub from_tape: f64,
    pub port: f64,
}

/// The least times of the sides that the table of laying out has.
pub fn least_times(queries: &mut Queries, rounds: usize) -> Times {
    let [ready_tree, from_tape, port] = least(queries, SIDES, rounds);
    Times { ready_tree, from_tape, port }
}

/// Nanoseconds for a token on each side. In each round each side takes its turn with all queries, so that it comes to a query as to a new one.
/// A side's time is the sum over the batches of its least time for the batch.
pub fn least<const N: usize>(queries: &mut Queries, sides: [Side; N], rounds: usize) -> [f64; N] {
    let passes = BATCH_TOKENS.div_ceil(queries.tokens);
    let batches = queries.batches();
    let mut least = sides.map(|_| vec![f64::INFINITY; batches.len()]);
    for _ in 0..rounds {
        for (side, least) in sides.into_iter().zip(&mut least) {
            for (batch, least) in batches.iter().zip(least) {
                *least = least.min(time(queries, side, batch, passes));
            }
        }
    }
    least.map(|times| times.iter().sum::<f64>() / (passes * queries.tokens) as f64)
}

/// Nanoseconds for so many passes over a batch.
fn time(queries: &mut Queries, side: Side, batch: &Range<usize>, passes: usize) -> f64 {
    let start = Instant::now();
    for _ in 0..passes {
        queries.run(side, batch.clone());
    }
    start.elapsed().as_nanos() as f64
}
