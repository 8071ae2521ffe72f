//! The programs: both ways on standard input and output, and that a fault gets a message, status 2 and no output.

use command_line::rules;

const FORM: &[u8] = b"width 4\ncase upper\n\nFile\n  BareWord \"a\"\n";
const JOB: &[u8] =
    &[0x10, 4, 0x11, 1, 0x12, 1, 0, 0, 0, b'a', 1, 1, 0, 0, 0, 0, 0, 1, 0, 0, 0, 2, 211, 0, 0, 0, 0, 0, 1, 0, 0, 0, 3];

const PROGRAM: &str = env!("CARGO_BIN_EXE_job");
const BOOK_PROGRAM: &str = env!("CARGO_BIN_EXE_book");

fn assert_writes(program: &str, arguments: &[&str], input: &[u8], expected: &[u8]) {
    let output = rules::run(program, arguments, input);
    assert_eq!((output.status.code(), output.stdout.as_slice()), (Some(0), expected));
    assert!(output.stderr.is_empty());
}

fn assert_refused(program: &str, arguments: &[&str], input: &[u8], message: &str) {
    let output = rules::run(program, arguments, input);
    let errors = String::from_utf8(output.stderr).unwrap();
    assert_eq!(output.status.code(), Some(2), "{errors}");
    assert!(errors.starts_with(message), "{errors}");
    assert!(output.stdout.is_empty(), "{message}");
}

#[test]
fn both_ways() {
    assert_writes(PROGRAM, &["to-bytes"], FORM, JOB);
    assert_writes(PROGRAM, &["to-text"], JOB, FORM);
}

/// The book of the job, and its form.
fn book() -> (Vec<u8>, Vec<u8>) {
    ([&[0x20, JOB.len() as u8, 0, 0, 0], JOB].concat(), [b"job\n", FORM].concat())
}

#[test]
fn both_ways_of_a_book() {
    let (book, form) = book();
    assert_writes(BOOK_PROGRAM, &["to-bytes"], &form, &book);
    assert_writes(BOOK_PROGRAM, &["to-text"], &book, &form);
}

#[test]
fn a_book_of_several_forms() {
    let example = |name: &str| format!("{}/../../examples/{name}.job.txt", env!("CARGO_MANIFEST_DIR"));
    let files = ["sheet-a", "sheet-b", "sheet-a"].map(example);
    let jobs = files.each_ref().map(|file| job_text::parse(&std::fs::read(file).unwrap()).unwrap());
    let arguments = [&["of"][..], &files.each_ref().map(String::as_str)].concat();
    assert_writes(BOOK_PROGRAM, &arguments, b"", &job_text::book::of(&jobs));
    assert_refused(BOOK_PROGRAM, &["of", &files[0], "no-such-file"], b"", "book: no-such-file: ");
    let readme = format!("{}/../../examples/README.md", env!("CARGO_MANIFEST_DIR"));
    let message = format!("book: {readme}: line 1, column 1: expected width\n");
    assert_refused(BOOK_PROGRAM, &["of", &readme], b"", &message);
}

#[test]
fn a_fault_of_a_book_gets_a_message_and_status_2() {
    assert_refused(
        BOOK_PROGRAM,
        &["to-bytes"],
        b"job\nwidth\n",
        "book: line 2, column 6: expected a number from 0 to 255\n",
    );
    for arguments in [&[][..], &["of"], &["to-json"], &["to-bytes", "file"], &["to-text", "file"], &["--help", "me"]] {
        assert_refused(BOOK_PROGRAM, arguments, b"", "book: usage: book of FORM... > BOOK ");
    }
}

#[test]
fn a_fault_gets_a_message_and_status_2() {
    let form = b"width 4\ncase upper\n\nFile\n  BareWord \"a\"\n  BareWrd \"b\"\n";
    assert_refused(PROGRAM, &["to-bytes"], form, "job: line 6, column 3: no kind is named BareWrd\n");
    assert_refused(PROGRAM, &["to-text"], &JOB[..9], "job: byte 4: expected command 12 (hexadecimal), ");
}

#[test]
fn a_bad_call_gets_the_usage_and_status_2() {
    for arguments in [&[][..], &["to-json"], &["to-bytes", "file"], &["to-text", "file"], &["--help", "me"]] {
        assert_refused(PROGRAM, arguments, b"", "job: usage: job to-bytes < FORM > JOB ");
    }
}

#[test]
fn what_holds_of_every_program() {
    rules::assert_kept(PROGRAM, "job");
    rules::assert_kept(BOOK_PROGRAM, "book");
}

#[test]
fn output_that_is_lost_is_told() {
    rules::assert_output_kept(PROGRAM, "job", &["to-bytes"], FORM);
    rules::assert_output_kept(PROGRAM, "job", &["to-text"], JOB);
    let (book, form) = book();
    rules::assert_output_kept(BOOK_PROGRAM, "book", &["to-bytes"], &form);
    rules::assert_output_kept(BOOK_PROGRAM, "book", &["to-text"], &book);
}

/// The form of a deep tree is as long as the square of its levels; the memory for it is not.
#[test]
fn a_deep_job_takes_little_memory() {
    const LEVELS: usize = 20_000;
    let header = [0x10, 4, 0x11, 1, 0x12, 0, 0, 0, 0];
    let open = [1, 1, 0, 0xFF, 0xFF, 0xFF, 0xFF, 0, 0, 0, 0];
    let job = [&header[..], &open.repeat(LEVELS), &[3; LEVELS]].concat();
    let in_little_memory = "ulimit -v 100000; \"$0\" to-text | wc -c";
    let printed = rules::run("sh", &["-c", in_little_memory, PROGRAM], &job);
    let settings = "width 4\ncase upper\n\n".len();
    let nodes = LEVELS * (LEVELS - 1) + LEVELS * "File\n".len();
    assert_eq!(String::from_utf8_lossy(&printed.stdout).trim(), (settings + nodes).to_string());
    assert!(printed.stderr.is_empty(), "{}", printed.stderr.escape_ascii());
}
