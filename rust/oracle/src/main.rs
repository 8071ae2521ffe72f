//! The command line of the oracle: prints cases with their answers, or answers a job or a book.

use command_line::Program;
use oracle::answers::{accepted_tree, answer, Answer, Case};
use oracle::cases::{make, Class, Made};
use oracle::map::{self, MapCase, MapPair, Mapped};
use oracle::masking::{breaches, claim, Pair};
use oracle::report::Tally;
use oracle::stored::{self, names, Record};
use oracle::tape::{Child, Node, Token};
use oracle::{arms, job, kinds, report, source, words};
use std::collections::BTreeSet;
use std::io::{self, Read};
use std::process::ExitCode;

const USAGE: &str = "usage: oracle case SEED CLASS INDEX            prints a case and its answer
       oracle vectors SEED CLASS FIRST COUNT   prints the calls of COUNT cases for a program, a line each
       oracle arms                             prints the arms of the source's routines, which vectors name
       oracle job < FILE                       answers a job as the desk's program does
       oracle report < FILE                    reports on a book as the report program does
       oracle map < FILE                       prints the job's call with line and column of each token
       oracle stored < FILE                    writes the stored list of the calls that FILE names, a line each
       oracle stored-maps                      writes the stored list of map calls
       oracle words                            prints the stored list of words
       oracle source                           says whether the source is at hand, which all of these need
       oracle --help, oracle --version
CLASS is parser, wild, damaged, jobs, masked, limits, small, utf8, utf8-small, utf8-damaged, utf8-masked,
utf8-limits, words, map, map-damaged, map-masked, map-limits, books, books-damaged, books-masked or books-limits; the
others are numbers from 0 to 2^64-1";

const PROGRAM: Program = Program { name: "oracle", version: env!("CARGO_PKG_VERSION"), usage: USAGE };

fn main() -> ExitCode {
    PROGRAM.run(|arguments, out| Ok(out.write_all(&run(arguments)?)?))
}

fn run(arguments: &[&str]) -> Result<Vec<u8>, String> {
    match arguments {
        ["job"] => answer_job(),
        ["report"] => report_book(),
        ["map"] => map_job().map(String::into_bytes),
        ["stored"] => stored_list(),
        ["stored-maps"] => stored_maps(),
        ["case", seed, class, index] => print_case(seed, class, index).map(String::into_bytes),
        ["vectors", seed, class, first, count] => print_vectors(seed, class, first, count).map(String::into_bytes),
        ["arms"] => print_arms().map(String::into_bytes),
        ["words"] => source_at_hand().map(|()| stored::words::list().into_bytes()),
        ["source"] => source_at_hand().map(|()| b"the source is at hand\n".to_vec()),
        _ => Err(USAGE.to_string()),
    }
}

fn source_at_hand() -> Result<(), String> {
    source::AT_HAND.then_some(()).ok_or(source::HINT.to_string())
}

fn answer_job() -> Result<Vec<u8>, String> {
    read_input().map(|bytes| job::printed(&bytes))
}

fn report_book() -> Result<Vec<u8>, String> {
    read_input().map(|bytes| report::report(&bytes, Tally::default()).printed)
}

/// The job's call, lent spaces of the needed lengths, and its map; 14 as the program prints it.
fn map_job() -> Result<String, String> {
    let bytes = read_input()?;
    Ok(match job::read(&bytes) {
        Ok(call) => map_call_text(&map::with_exact_spaces(call)),
        Err(refusal) => format!("mapped {}\n", numbers(refusal)),
    })
}

/// A job or a book, whose buffers are of one size.
fn read_input() -> Result<Vec<u8>, String> {
    source_at_hand()?;
    let mut bytes = Vec::new();
    // One byte past the buffer tells an input that is too long.
    let input = io::stdin().lock().take(job::BUFFER as u64 + 1).read_to_end(&mut bytes);
    input.map_err(|error| format!("the input cannot be read: {error}"))?;
    Ok(bytes)
}

fn stored_list() -> Result<Vec<u8>, String> {
    source_at_hand()?;
    let lines = io::read_to_string(io::stdin()).map_err(|error| format!("the names cannot be read: {error}"))?;
    let records: Result<Vec<Record>, String> = lines.lines().map(|line| names::call(line).map(Record::of)).collect();
    stored::write(&records?)
}

fn stored_maps() -> Result<Vec<u8>, String> {
    source_at_hand()?;
    Ok(stored::maps::write(&stored::maps::every()).expect("records that suit the list"))
}

fn number(text: &str) -> Result<u64, String> {
    text.parse().map_err(|_| format!("{} is not a number\n{USAGE}", text.escape_debug()))
}

fn class_named(name: &str) -> Result<Class, String> {
    Class::named(name).ok_or(format!("{} is not a class\n{USAGE}", name.escape_debug()))
}

fn print_case(seed: &str, class: &str, index: &str) -> Result<String, String> {
    let (seed, class, index) = (number(seed)?, class_named(class)?, number(index)?);
    source_at_hand()?;
    Ok(match make(seed, class, index) {
        Made::Call(case) => call_text(&case),
        Made::Job(bytes) => job_text(&bytes),
        Made::Pair(pair) => pair_text(&pair),
        Made::Word(word) => word_text(&word),
        Made::MapCall(case) => map_call_text(&case),
        Made::MapPair(pair) => map_pair_text(&pair),
        Made::Book(book) => book_text(&book),
        Made::BookPair(books) => book_pair_text(&books),
    })
}

/// A line for each call: class and index; the input; the answers and the spaces afterwards; the arms taken. Tabs between them.
fn print_vectors(seed: &str, name: &str, first: &str, count: &str) -> Result<String, String> {
    let (seed, class, first, count) = (number(seed)?, class_named(name)?, number(first)?, number(count)?);
    let last = first.checked_add(count).ok_or(format!("{first} and {count} pass the last index\n{USAGE}"))?;
    source_at_hand()?;
    let lines = (first..last).map(|index| {
        let call = format!("{name} {index}");
        let of_pair = |which: usize| format!("{call} {}", ["first", "second"][which]);
        Ok(match make(seed, class, index) {
            Made::Call(case) => vector(&call, &case),
            Made::MapCall(case) => map_vector(&call, &case),
            Made::Pair(pair) => [0, 1].map(|which| vector(&of_pair(which), &pair.case(which))).concat(),
            Made::MapPair(pair) => [0, 1].map(|which| map_vector(&of_pair(which), &pair.case(which))).concat(),
            Made::Job(_) | Made::Word(_) | Made::Book(_) | Made::BookPair(_) => {
                return Err(format!("{name} makes no calls\n{USAGE}"))
            }
        })
    });
    lines.collect()
}

fn vector(name: &str, case: &Case) -> String {
    let answered = answer(case);
    let taken: Vec<String> = arms::taken(case).into_iter().collect();
    let fields = [
        name.to_string(),
        case.width.to_string(),
        case.case.to_string(),
        hexadecimal(&case.text),
        hexadecimal(&case.tape),
        hexadecimal(&case.space),
        numbers(answered.laid_out),
        hexadecimal(&answered.space),
        taken.join(";"),
    ];
    fields.join("\t") + "\n"
}

fn map_vector(name: &str, case: &MapCase) -> String {
    let mapped = map::answer(case);
    let MapCase { call, map } = case;
    let arms = if mapped.answer.number == 0 { arms::taken(call) } else { BTreeSet::new() };
    let taken: Vec<String> = arms.into_iter().collect();
    let fields = [
        name.to_string(),
        call.width.to_string(),
        call.case.to_string(),
        hexadecimal(&call.text),
        hexadecimal(&call.tape),
        hexadecimal(&call.space),
        decimal(map),
        numbers(mapped.answer),
        hexadecimal(&mapped.space),
        decimal(&mapped.map),
        taken.join(";"),
    ];
    fields.join("\t") + "\n"
}

fn print_arms() -> Result<String, String> {
    source_at_hand()?;
    Ok(arms::every().into_iter().map(|name| name + "\n").collect())
}

fn call_text(case: &Case) -> String {
    let answered = answer(case);
    format!(
        "{}laid out {}\nspace after: \"{}\"\n",
        input_text(case),
        numbers(answered.laid_out),
        answered.space.escape_ascii()
    )
}

fn input_text(case: &Case) -> String {
    let mut text = format!(
        "width {}, case {}, space {} bytes\ntext, {} bytes: \"{}\"\ntape, {} bytes:\n",
        case.width,
        case.case,
        case.space.len(),
        case.text.len(),
        case.text.escape_ascii(),
        case.tape.len()
    );
    match accepted_tree(case) {
        Ok(root) => print_node(&root, &case.text, 1, &mut text),
        Err(_) => text.push_str(&format!("  {}\n", hexadecimal(&case.tape))),
    }
    text
}

fn print_node(node: &Node, text: &[u8], level: usize, out: &mut String) {
    let indent = "  ".repeat(level);
    out.push_str(&format!("{indent}{} {} to {}\n", kinds::name(node.kind), node.start, node.end));
    for child in &node.children {
        match child {
            Child::Node(node) => print_node(node, text, level + 1, out),
            Child::Token(token) => out.push_str(&format!("{indent}  {}\n", token_text(token, text))),
        }
    }
}

fn token_text(token: &Token, text: &[u8]) -> String {
    let part = &text[token.start as usize..token.end as usize];
    format!("{} {} to {} \"{}\"", kinds::name(token.kind), token.start, token.end, part.escape_ascii())
}

fn map_call_text(case: &MapCase) -> String {
    let mapped = map::answer(case);
    format!(
        "{}map space {} numbers\nmapped {}\nspace after: \"{}\"\n{}",
        input_text(&case.call),
        case.map.len(),
        numbers(mapped.answer),
        mapped.space.escape_ascii(),
        map_text(case, &mapped)
    )
}

/// The map by its tokens, then the numbers that stay; all numbers in a row where the call is refused.
fn map_text(case: &MapCase, mapped: &Mapped) -> String {
    let root = match (accepted_tree(&case.call), mapped.answer.number) {
        (Ok(root), 0) => root,
        _ => return format!("map after: {}\n", decimal(&mapped.map)),
    };
    let tokens = map::tokens(&root);
    let (places, rest) = mapped.map.split_at(2 * tokens.len());
    let line = |(token, place): (&&Token, &[u64])| {
        format!("  line {}, column {}: {}\n", place[0], place[1], token_text(token, &case.call.text))
    };
    let lines: String = tokens.iter().zip(places.chunks(2)).map(line).collect();
    let rest = if rest.is_empty() { String::new() } else { format!("  then {}\n", decimal(rest)) };
    format!("map after:\n{lines}{rest}")
}

fn job_text(bytes: &[u8]) -> String {
    format!(
        "job, {} bytes:\n  {}\nprinted: \"{}\"\n",
        bytes.len(),
        hexadecimal(bytes),
        job::printed(bytes).escape_ascii()
    )
}

fn book_text(book: &[u8]) -> String {
    let reported = report::report(book, Tally::default());
    format!(
        "book, {} bytes:\n  {}\n{:?}\nprinted: \"{}\"\n",
        book.len(),
        hexadecimal(book),
        reported.tally,
        reported.printed.escape_ascii()
    )
}

fn book_pair_text(books: &[Vec<u8>; 2]) -> String {
    let [first, second] = books;
    format!(
        "first\n{}second\n{}differ as masked: {}\nclaim: {:?}\n",
        book_text(first),
        book_text(second),
        report::differ_as_masked(first, second),
        report::claim(first, second)
    )
}

fn pair_text(pair: &Pair) -> String {
    let conditions = breaches(pair);
    format!(
        "first\n{}second\n{}conditions not met: {conditions:?}\nclaim: {:?}\n",
        call_text(&pair.case(0)),
        call_text(&pair.case(1)),
        claim(pair)
    )
}

fn word_text(word: &[u8]) -> String {
    format!("word, {} bytes: \"{}\"\nanswered {}\n", word.len(), word.escape_ascii(), numbers(words::answer(word)))
}

fn map_pair_text(pair: &MapPair) -> String {
    let conditions = breaches(&pair.calls);
    format!(
        "first\n{}second\n{}conditions not met: {conditions:?}\nclaim: {:?}\nclaim of the map: {:?}\n",
        map_call_text(&pair.case(0)),
        map_call_text(&pair.case(1)),
        claim(&pair.calls),
        map::claim(pair)
    )
}

fn numbers(answer: Answer) -> String {
    format!("{} {}", answer.number, answer.second)
}

fn hexadecimal(bytes: &[u8]) -> String {
    bytes.iter().map(|byte| format!("{byte:02X}")).collect::<Vec<_>>().join(" ")
}

fn decimal(numbers: &[u64]) -> String {
    numbers.iter().map(u64::to_string).collect::<Vec<_>>().join(" ")
}
