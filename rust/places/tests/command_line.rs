//! The program: what it prints for the examples, and that what can't be laid out gets a message, status 2 and no output.

use command_line::rules;
use oracle::answers::accepted_tree;
use oracle::job;
use oracle::map::{answer, tokens, with_exact_spaces};
use oracle::tape::Token;
use std::fs;
use std::path::PathBuf;

const PROGRAM: &str = env!("CARGO_BIN_EXE_places");

const SHEET_B: &str = "\
1  SELECT
2      a,
3      b
4  FROM t

line 1, column 1  BareWord \"select\"
line 2, column 5  BareWord \"a\"
line 2, column 6  Comma \",\"
line 3, column 5  BareWord \"b\"
line 4, column 1  BareWord \"from\"
line 4, column 6  BareWord \"t\"
";

fn folder() -> PathBuf {
    PathBuf::from(env!("CARGO_MANIFEST_DIR")).join("../../examples")
}

fn form(name: &str) -> Vec<u8> {
    fs::read(folder().join(format!("{name}.job.txt"))).expect("an example")
}

/// The names of the examples that are laid out.
fn laid_out_examples() -> Vec<String> {
    let files = fs::read_dir(folder()).expect("the examples").map(|file| file.unwrap().file_name());
    let names = files.filter_map(|file| Some(file.to_str()?.strip_suffix(".job.txt")?.to_string()));
    names.filter(|name| !name.starts_with("refused-")).collect()
}

fn printed(input: &[u8]) -> String {
    let output = rules::run(PROGRAM, &[], input);
    assert_eq!((output.status.code(), output.stderr.escape_ascii().to_string()), (Some(0), String::new()));
    String::from_utf8(output.stdout).expect("a text")
}

fn assert_refused(input: &[u8], message: &str) {
    let output = rules::run(PROGRAM, &[], input);
    assert_eq!((output.status.code(), String::from_utf8_lossy(&output.stderr).as_ref()), (Some(2), message));
    assert!(output.stdout.is_empty());
}

#[test]
fn a_form_and_its_bytes() {
    let form = form("sheet-b");
    assert_eq!(printed(&form), SHEET_B);
    assert_eq!(printed(&job_text::parse(&form).unwrap()), SHEET_B);
}

#[test]
fn tokens_copied_as_typed_have_no_place() {
    let printed = printed(&form("error-in-condition"));
    assert!(printed.contains("\n5  where bad_blocks > 5  temperature>70\n"), "{printed}");
    assert!(printed.contains("\nno place           BareWord \"bad_blocks\"\n"), "{printed}");
    assert!(printed.contains("\nline 6, column 10  BareWord \"device\"\n"), "{printed}");
}

#[test]
fn an_empty_layout_has_no_line() {
    assert_eq!(printed(&form("sheet-a")), "\n");
}

/// The numbered lines are the layout's, and the numbers the oracle's.
#[test]
fn every_example() {
    if !oracle::source::at_hand_for("every_example") {
        return;
    }
    let names = laid_out_examples();
    assert!(names.len() > 30);
    for name in names {
        let printed = printed(&form(&name));
        let layout = fs::read_to_string(folder().join(format!("{name}.out"))).unwrap();
        let digits = layout.lines().count().to_string().len();
        let numbered = layout.lines().zip(1..).map(|(line, number)| format!("{number:>digits$}  {line}\n"));
        let rows = printed.strip_prefix(&format!("{}\n", numbered.collect::<String>())).expect("the layout in front");
        assert_eq!(rows.lines().map(place).collect::<Vec<_>>(), placed(&form(&name)), "{name}");
    }
}

/// Line and column of a row; 0 and 0 for no place.
fn place(row: &str) -> [u64; 2] {
    let Some(row) = row.strip_prefix("line ") else {
        assert!(row.starts_with("no place "), "{row}");
        return [0, 0];
    };
    let (line, row) = row.split_once(", column ").expect("a column");
    let (column, _) = row.split_once("  ").expect("a token");
    [line, column].map(|number| number.parse().expect("a number"))
}

/// The oracle's line and column of each token that is no white space.
fn placed(form: &[u8]) -> Vec<[u64; 2]> {
    let call = job::read(&job_text::parse(form).unwrap()).expect("a good job");
    let root = accepted_tree(&call).expect("accepted");
    let is_white = |token: &Token| call.text[token.start as usize..token.end as usize].trim_ascii().is_empty();
    let map = answer(&with_exact_spaces(call.clone())).map;
    let places = tokens(&root).into_iter().zip(map.chunks(2));
    places.filter(|(token, _)| !is_white(token)).map(|(_, place)| [place[0], place[1]]).collect()
}

#[test]
fn a_refusal_is_told_with_the_token_that_it_is_about() {
    let message =
        "places: bare word with a byte above 127 (refusal 16) at tape offset 22: token BareWord from 0 to 7\n";
    assert_refused(&form("refused-word"), message);
    assert_refused(b"width 17\ncase upper\n\nFile\n", "places: indent width above 16 (refusal 1)\n");
}

#[test]
fn what_is_no_job_is_told() {
    assert_refused(b"\x10\x04", "places: byte 2: expected command 11 (hexadecimal) and the case\n");
    let fault = b"width 4\ncase upper\n\nFile\n  BareWrd \"b\"\n";
    assert_refused(fault, "places: line 5, column 3: no kind is named BareWrd\n");
}

#[test]
fn a_bad_call_gets_the_usage_and_status_2() {
    let output = rules::run(PROGRAM, &["file"], b"");
    assert_eq!(output.status.code(), Some(2));
    assert!(output.stderr.starts_with(b"places: usage: places < JOB ") && output.stdout.is_empty());
}

#[test]
fn what_holds_of_every_program() {
    rules::assert_kept(PROGRAM, "places");
    rules::assert_output_kept(PROGRAM, "places", &[], &form("sheet-b"));
}
