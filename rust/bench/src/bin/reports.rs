//! Times the port's report over books of typical queries beside the same report made with the source's `format`, in one run.

use command_line::{Failure, Program};
use oracle::answers::{accepted_tree, formatted, Case};
use oracle::job::{self, BUFFER};
use oracle::report::{first_job, write, Tally, MOST_BYTES, MOST_JOBS};
use oracle::source;
use oracle::text::accepted;
use std::fmt::Write as _;
use std::hint::black_box;
use std::io::{self, Write};
use std::process::ExitCode;
use std::time::Instant;

const USAGE: &str =
    "usage: reports   prints what a report over books of typical queries costs on both sides; takes no argument";

const SEED: u64 = 1;
const ROUNDS: usize = 25;

const PROGRAM: Program = Program { name: "reports", version: env!("CARGO_PKG_VERSION"), usage: USAGE };

fn main() -> ExitCode {
    PROGRAM.run(|arguments, out| {
        arguments.is_empty().then_some(()).ok_or(Failure::BadCall)?;
        bench::all_at_hand()?;
        let mut books = Books::new();
        books.compare().map_err(Failure::Found)?;
        Ok(print_times(&mut books, out)?)
    })
}

/// A query as the source takes it.
struct Ready {
    tree: source::Tree,
    text: String,
    case: Case,
}

impl Ready {
    fn of(case: Case) -> Ready {
        let tree = source::tree(&accepted_tree(&case).expect("accepted"));
        Ready { tree, text: accepted(&case.text).to_string(), case }
    }
}

/// A book, and its queries for the source.
#[derive(Default)]
struct Book {
    bytes: Vec<u8>,
    queries: Vec<Ready>,
}

impl Book {
    fn has_room(&self, bytes: usize) -> bool {
        self.bytes.len() + bytes <= MOST_BYTES && self.queries.len() < MOST_JOBS
    }
}

/// Books of typical queries, and the spaces that the port is lent.
struct Books {
    books: Vec<Book>,
    work: Box<[u8; BUFFER]>,
    out: Vec<u8>,
    tokens: usize,
}

/// What is timed.
#[derive(Clone, Copy)]
enum Side {
    /// The source's `format` of trees that are ready, and the lines.
    ReadyTrees,
    /// The book walked, each job read with all refusals, then the same.
    FromBook,
    /// The port's call.
    Port,
}

const SIDES: [Side; 3] = [Side::ReadyTrees, Side::FromBook, Side::Port];

impl Books {
    /// As many queries to a book as it has room for.
    fn new() -> Books {
        let corpus = bench::corpora::named("typical").expect("a corpus of that name");
        let cases = (corpus.make)(SEED);
        let tokens = cases.iter().map(|case| bench::corpora::tokens(case).len()).sum();
        let mut books = vec![Book::default()];
        for case in cases {
            let command = write(&[job::write(&case)]);
            if books.last().is_some_and(|book| !book.has_room(command.len())) {
                books.push(Book::default());
            }
            let book = books.last_mut().expect("there is one");
            book.bytes.extend(command);
            book.queries.push(Ready::of(case));
        }
        Books { books, work: Box::new([0; BUFFER]), out: vec![0; BUFFER], tokens }
    }

    /// The report over a book by one side.
    fn report(&mut self, side: Side, number: usize) -> String {
        match side {
            Side::ReadyTrees => ready_trees(&self.books[number].queries),
            Side::FromBook => from_book(&self.books[number].bytes),
            Side::Port => self.port(number),
        }
    }

    #[inline(never)]
    fn port(&mut self, number: usize) -> String {
        let put = bench::report(black_box(&self.books[number].bytes), 0, &mut [0; 4], &mut self.work, &mut self.out);
        String::from_utf8(self.out[..put].to_vec()).expect("a report is ASCII")
    }

    /// The error names the first book on which the sides differ.
    fn compare(&mut self) -> Result<(), String> {
        let differs = |books: &mut Books, number| {
            let [ready, book, port] = SIDES.map(|side| books.report(side, number));
            ready != port || book != port
        };
        let found = (0..self.books.len()).find(|number| differs(self, *number));
        found.map_or(Ok(()), |number| Err(format!("book {number}: the port's report is not the source's")))
    }
}

/// The lines over layouts, and the last line.
#[derive(Default)]
struct Lines {
    text: String,
    tally: Tally,
}

impl Lines {
    fn add(&mut self, layout: &str) {
        let lines = layout.bytes().filter(|byte| *byte == 10).count() as u64;
        self.tally.jobs += 1;
        self.tally.bytes += layout.len() as u64;
        self.tally.lines += lines;
        let _ = writeln!(self.text, "{} bytes {} lines {lines}", self.tally.jobs, layout.len());
    }

    fn finished(mut self) -> String {
        let Tally { jobs, refused, bytes, lines } = self.tally;
        let _ = writeln!(self.text, "total jobs {jobs} refused {refused} bytes {bytes} lines {lines}");
        self.text
    }
}

#[inline(never)]
fn ready_trees(queries: &[Ready]) -> String {
    let mut lines = Lines::default();
    for Ready { tree, text, case } in queries {
        lines.add(&source::format_tree(black_box(tree), case.width as usize, case.case == 1, text));
    }
    lines.finished()
}

#[inline(never)]
fn from_book(book: &[u8]) -> String {
    let (mut lines, mut rest) = (Lines::default(), black_box(book));
    while let Some((job, after)) = first_job(rest) {
        let case = job::call(job).expect("a whole header");
        lines.add(&formatted(&case).expect("accepted"));
        rest = after;
    }
    lines.finished()
}

/// In each round each side takes its turn with all books. A side's time is the sum over the books of its least time for the book.
fn print_times(books: &mut Books, out: &mut dyn Write) -> io::Result<()> {
    let mut least = SIDES.map(|_| vec![f64::INFINITY; books.books.len()]);
    for _ in 0..ROUNDS {
        for (side, least) in SIDES.into_iter().zip(&mut least) {
            for (number, least) in least.iter_mut().enumerate() {
                let start = Instant::now();
                black_box(books.report(side, number));
                *least = least.min(start.elapsed().as_nanos() as f64);
            }
        }
    }
    let jobs: usize = books.books.iter().map(|book| book.queries.len()).sum();
    let [ready, book, port] = least.map(|times| times.iter().sum::<f64>() / books.tokens as f64);
    writeln!(
        out,
        "{} books, {jobs} jobs, {} tokens; the source's time over the port's: ready trees {:.2}, from the book {:.2}",
        books.books.len(),
        books.tokens,
        ready / port,
        book / port
    )?;
    writeln!(out, "nanoseconds a token: ready trees {ready:.1}, from the book {book:.1}, port {port:.1}")
}
