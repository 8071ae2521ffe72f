//! The program: what it prints, and that a bad call gets a message and status 2.

mod common;

use command_line::rules;
use oracle::answers::answer;
use oracle::cases::{call, map_call, Class};
use oracle::stored::{self, names, Record};
use oracle::{arms, job, map};
use std::process::Output;

const PROGRAM: &str = env!("CARGO_BIN_EXE_oracle");

fn oracle(arguments: &[&str], input: &[u8]) -> Output {
    rules::run(PROGRAM, arguments, input)
}

fn assert_bad_call(arguments: &[&str], message: &str) {
    let output = oracle(arguments, b"");
    let errors = String::from_utf8_lossy(&output.stderr).to_string();
    assert_eq!(output.status.code(), Some(2), "{arguments:?}: {errors}");
    assert!(errors.starts_with("oracle: ") && errors.contains(message), "{arguments:?}: {errors}");
    assert!(output.stdout.is_empty(), "{arguments:?}");
}

#[test]
fn a_bad_call_gets_a_message_and_status_2() {
    assert_bad_call(&[], "usage: oracle");
    assert_bad_call(&["answer"], "usage: oracle");
    assert_bad_call(&["job", "file"], "usage: oracle");
    assert_bad_call(&["case", "1", "parser"], "usage: oracle");
    assert_bad_call(&["case", "1", "parser", "2", "3"], "usage: oracle");
    assert_bad_call(&["case", "-1", "parser", "0"], "-1 is not a number");
    assert_bad_call(&["case", "0", "parser", "18446744073709551616"], "18446744073709551616 is not a number");
    assert_bad_call(&["case", "0", "Parser", "0"], "Parser is not a class");
    assert_bad_call(&["vectors", "0", "parser", "0"], "usage: oracle");
    assert_bad_call(&["vectors", "0", "parser", "18446744073709551615", "1"], "pass the last index");
    assert_bad_call(&["arms", "parser"], "usage: oracle");
    assert_bad_call(&["stored", "file"], "usage: oracle");
    assert_bad_call(&["words", "file"], "usage: oracle");
    assert_bad_call(&["map", "file"], "usage: oracle");
    assert_bad_call(&["report", "file"], "usage: oracle");
    assert_bad_call(&["source", "file"], "usage: oracle");
}

#[test]
fn what_holds_of_every_program() {
    rules::assert_kept(PROGRAM, "oracle");
}

#[test]
fn output_that_is_lost_is_told() {
    needs_source!();
    let job = [0x10, 4, 0x11, 1, 0x12, 1, 0, 0, 0, 0x61, 1, 0, 0, 0, 0, 0, 0, 1, 0, 0, 0, 3];
    rules::assert_output_kept(PROGRAM, "oracle", &["job"], &job);
    rules::assert_output_kept(PROGRAM, "oracle", &["stored"], b"1 small 0\n");
    rules::assert_output_kept(PROGRAM, "oracle", &["case", "1", "parser", "0"], b"");
}

#[test]
fn the_source_is_asked_for() {
    needs_source!();
    let output = oracle(&["source"], b"");
    assert!(output.status.success());
    assert_eq!(output.stdout, b"the source is at hand\n");
}

#[test]
fn a_stored_list_has_a_record_for_each_name() {
    needs_source!();
    let output = oracle(&["stored"], b"1 small 0\nhand text-too-long\n");
    assert!(output.status.success());
    let records = [call(1, Class::Small, 0), names::call("hand text-too-long").unwrap()].map(Record::of);
    assert!(stored::write(&records).unwrap() == output.stdout);
    let output = oracle(&["stored"], b"1 small 0\n1 large 0\n");
    assert_eq!(output.status.code(), Some(2));
    assert!(output.stdout.is_empty() && output.stderr == b"oracle: no call has the name: 1 large 0\n");
}

#[test]
fn the_stored_words_are_printed() {
    needs_source!();
    assert_eq!(oracle(&["words"], b"").stdout, stored::words::list().into_bytes());
    rules::assert_output_kept(PROGRAM, "oracle", &["words"], b"");
}

#[test]
fn messages_have_no_control_bytes() {
    needs_source!();
    let output = oracle(&["stored"], b"\x1B[2J 1\x07\n");
    assert_eq!(output.status.code(), Some(2));
    assert_eq!(output.stderr, b"oracle: no call has the name: \\u{1b}[2J 1\\u{7}\n");
    assert_bad_call(&["case", "\x1B", "parser", "0"], "\\u{1b} is not a number");
    assert_bad_call(&["case", "1", "\x1B", "0"], "\\u{1b} is not a class");
}

#[test]
fn a_job_is_answered_on_standard_output() {
    needs_source!();
    let job = [0x10, 4, 0x11, 1, 0x12, 1, 0, 0, 0, 0x61, 1, 0, 0, 0, 0, 0, 0, 1, 0, 0, 0, 3];
    let output = oracle(&["job"], &job);
    assert!(output.status.success());
    assert_eq!(output.stdout, b"a\n");
    assert_eq!(oracle(&["job"], b"").stdout, b"refused 14 at 0\n");
    assert_eq!(oracle(&["job"], &[0; 70_000]).stdout, b"refused 14 at 65536\n");
}

#[test]
fn a_book_is_reported_on() {
    needs_source!();
    let book = [0x20, 0, 0, 0, 0];
    let output = oracle(&["report"], &book);
    assert!(output.status.success());
    assert_eq!(output.stdout, b"1 refused 14 at 0\ntotal jobs 1 refused 1 bytes 0 lines 0\n");
    assert_eq!(oracle(&["report"], &book[1..]).stdout, b"refused 18 at 0\n");
    assert_eq!(oracle(&["report"], &[0; 70_000]).stdout, b"refused 18 at 65536\n");
}

#[test]
fn a_job_is_mapped_token_by_token() {
    needs_source!();
    let output = oracle(&["map"], &job::write(&common::call(common::sheet_b)));
    assert!(output.status.success());
    let text = String::from_utf8(output.stdout).unwrap();
    let shown = "map space 18 numbers
mapped 0 27
space after: \"SELECT\\n    a,\\n    b\\nFROM t\\n\"
map after:
  line 1, column 1: BareWord 0 to 6 \"select\"
  line 0, column 0: Whitespace 6 to 7 \" \"
  line 2, column 5: BareWord 7 to 8 \"a\"
  line 2, column 6: Comma 8 to 9 \",\"
  line 3, column 5: BareWord 9 to 10 \"b\"
  line 0, column 0: Whitespace 10 to 11 \" \"
  line 4, column 1: BareWord 11 to 15 \"from\"
  line 0, column 0: Whitespace 15 to 16 \" \"
  line 4, column 6: BareWord 16 to 17 \"t\"
";
    assert!(text.ends_with(shown), "{text}");
    assert_eq!(oracle(&["map"], b"").stdout, b"mapped 14 0\n");
}

#[test]
fn each_class_prints_its_case_and_answer() {
    needs_source!();
    for (class, part) in [
        ("parser", "laid out "),
        ("wild", "laid out "),
        ("damaged", "laid out "),
        ("limits", "laid out "),
        ("small", "laid out "),
        ("jobs", "printed: "),
        ("masked", "claim: Ok"),
        ("utf8", "laid out "),
        ("utf8-small", "laid out "),
        ("utf8-damaged", "laid out "),
        ("utf8-masked", "claim: Ok"),
        ("utf8-limits", "laid out "),
        ("words", "answered "),
        ("map", "mapped "),
        ("map-damaged", "mapped "),
        ("map-masked", "claim of the map: Ok"),
        ("map-limits", "mapped "),
        ("books", "printed: "),
        ("books-damaged", "printed: "),
        ("books-masked", "differ as masked: true\nclaim: Ok"),
        ("books-limits", "printed: "),
    ] {
        let output = oracle(&["case", "1", class, "10"], b"");
        assert!(output.status.success(), "{class}");
        assert!(String::from_utf8(output.stdout).unwrap().contains(part), "{class}");
    }
}

fn lines(arguments: &[&str]) -> Vec<String> {
    let output = oracle(arguments, b"");
    assert!(output.status.success(), "{arguments:?}");
    String::from_utf8(output.stdout).unwrap().lines().map(str::to_string).collect()
}

#[test]
fn vectors_are_the_calls_a_line_each() {
    needs_source!();
    for (class, names) in [
        ("small", vec!["small 7", "small 8"]),
        ("masked", vec!["masked 7 first", "masked 7 second", "masked 8 first", "masked 8 second"]),
        ("map", vec!["map 7", "map 8"]),
        ("map-masked", vec!["map-masked 7 first", "map-masked 7 second", "map-masked 8 first", "map-masked 8 second"]),
    ] {
        let lines = lines(&["vectors", "1", class, "7", "2"]);
        let firsts: Vec<&str> = lines.iter().filter_map(|line| line.split('\t').next()).collect();
        assert_eq!(firsts, names);
    }
    assert!(lines(&["vectors", "1", "parser", "7", "0"]).is_empty());
    assert_bad_call(&["vectors", "1", "jobs", "7", "2"], "jobs makes no calls");
    assert_bad_call(&["vectors", "1", "words", "7", "2"], "words makes no calls");
}

fn bytes(field: &str) -> Vec<u8> {
    field.split_whitespace().map(|byte| u8::from_str_radix(byte, 16).unwrap()).collect()
}

fn decimal(field: &str) -> Vec<u64> {
    field.split_whitespace().map(|number| number.parse().unwrap()).collect()
}

#[test]
fn a_vector_of_a_map_call_holds_the_call_and_its_answer() {
    needs_source!();
    for (index, line) in lines(&["vectors", "1", "map", "0", "40"]).iter().enumerate() {
        let case = map_call(1, Class::Map, index as u64);
        let mapped = map::answer(&case);
        let arms = Some(arms::taken(&case.call)).filter(|_| mapped.answer.number == 0).unwrap_or_default();
        let arms: Vec<String> = arms.into_iter().collect();
        let fields: Vec<&str> = line.split('\t').collect();
        assert_eq!(fields.len(), 11);
        assert_eq!(fields[1..3], [case.call.width.to_string(), case.call.case.to_string()]);
        let spaces = [case.call.text, case.call.tape, case.call.space, mapped.space];
        assert_eq!([3, 4, 5, 8].map(|field| bytes(fields[field])), spaces);
        assert_eq!([6, 9].map(|field| decimal(fields[field])), [case.map, mapped.map]);
        assert_eq!(fields[7], format!("{} {}", mapped.answer.number, mapped.answer.second));
        assert_eq!(fields[10], arms.join(";"), "only a layout that is written shows arms");
    }
}

#[test]
fn a_vector_holds_the_call_and_its_answer() {
    needs_source!();
    for (index, line) in lines(&["vectors", "1", "small", "0", "20"]).iter().enumerate() {
        let case = call(1, Class::Small, index as u64);
        let answered = answer(&case);
        let fields: Vec<&str> = line.split('\t').collect();
        assert_eq!(fields.len(), 9);
        assert_eq!(fields[1..3], [case.width.to_string(), case.case.to_string()]);
        assert_eq!([3, 4, 5, 7].map(|field| bytes(fields[field])), [case.text, case.tape, case.space, answered.space]);
        assert_eq!(fields[6], format!("{} {}", answered.laid_out.number, answered.laid_out.second));
        assert_eq!(fields[8].is_empty(), answered.laid_out.number != 0, "only a layout that is written shows arms");
    }
}
