//! The report over a book: document 02's sentences on E6 and E7, each on a small book.

mod common;

use common::{call, nested_files, plain, sheet_b, FILE};
use oracle::answers::Answer;
use oracle::builder::Builder;
use oracle::cases::{make, Class, Made};
use oracle::job;
use oracle::report::{
    answer, claim, differ_as_masked, jobs, report, write, ReportCase, Reported, Tally, MOST_BYTES, MOST_JOBS,
};
use oracle::tape::{push_close, push_open, push_token};

/// What a tally may hold before the call.
const HELD: Tally = Tally { jobs: 3, refused: u64::MAX, bytes: 1 << 40, lines: 7 };

/// The job of the course sheet's B, whose layout has 27 bytes in 4 lines.
fn job_b() -> Vec<u8> {
    job::write(&call(sheet_b))
}

/// A job that is refused with 12 at 0.
fn lone_close() -> Vec<u8> {
    job::write(&plain(b"", vec![3]))
}

/// The job of a File with one token of this kind, for each text.
fn with_token(kind: &str, text: &str) -> Vec<u8> {
    job::write(&call(|b: &mut Builder| b.node("File", |b| b.token(kind, text))))
}

#[track_caller]
fn assert_prints<T: AsRef<[u8]>>(jobs: &[T], expected: &str) {
    assert_eq!(printed(&write(jobs)), expected);
}

fn printed(book: &[u8]) -> String {
    String::from_utf8(report(book, HELD).printed).expect("a report is ASCII")
}

/// The book is refused so, whatever the tally held; nothing else is printed, and the tally stays.
#[track_caller]
fn assert_refused(book: &[u8], number: u64, place: usize) {
    let printed = format!("refused {number} at {place}\n").into_bytes();
    assert_eq!(report(book, HELD), Reported { printed, tally: HELD, layouts: Vec::new() });
    assert_eq!(jobs(book), Err(Answer { number, second: place as u64 }));
}

// The book

#[test]
fn a_command_is_20_a_length_low_byte_first_and_the_job() {
    let job = [7; 258];
    let book = [&[0x20, 2, 1, 0, 0][..], &job].concat();
    assert_eq!(write(&[job]), book);
    assert_eq!(jobs(&book), Ok(vec![&job[..]]));
    assert_eq!(
        jobs(&[0x20, 1, 0, 0, 0, 0x20, 0x20, 0, 0, 0, 0]),
        Ok(vec![&[0x20][..], &[]]),
        "a job may hold any byte"
    );
}

#[test]
fn a_wrong_command_is_18_at_its_offset() {
    assert_refused(&[0], 18, 0);
    assert_refused(&[0x10, 4], 18, 0);
    assert_refused(&[0x21, 0, 0, 0, 0], 18, 0);
    assert_refused(&[&write(&[b"abc"])[..], &[0x1F, 0, 0, 0, 0]].concat(), 18, 8);
}

#[test]
fn a_command_cut_short_is_18_at_its_offset() {
    for length in 1..5 {
        assert_refused(&[0x20, 0, 0, 0, 0][..length], 18, 0);
        assert_refused(&[&write(&[b"abc"])[..], &[0x20, 0, 0, 0, 0][..length]].concat(), 18, 8);
    }
}

#[test]
fn a_length_that_passes_the_books_end_is_the_command_cut_short() {
    for length in [3, 256, 1 << 31, u32::MAX - 4, u32::MAX] {
        let command = [&[0x20][..], &u32::to_le_bytes(length), b"ab"].concat();
        assert_refused(&command, 18, 0);
        assert_refused(&[&write(&[b"abc"])[..], &command].concat(), 18, 8);
    }
}

#[test]
fn a_book_above_65536_bytes_is_18_at_65536_whatever_it_holds() {
    needs_source!();
    let filled = |bytes: usize| write(&[vec![0; bytes - 5]]);
    assert_eq!(printed(&filled(MOST_BYTES)), "1 refused 14 at 0\ntotal jobs 1 refused 1 bytes 0 lines 0\n");
    assert_refused(&filled(MOST_BYTES + 1), 18, MOST_BYTES);
    assert_refused(&[0; MOST_BYTES + 1], 18, MOST_BYTES);
    assert_refused(&write(&[[]; MOST_BYTES / 5 + 1]), 18, MOST_BYTES);
    assert_refused(&[0; MOST_BYTES], 18, 0);
}

#[test]
fn a_257th_job_is_19_at_its_offset() {
    let last = |jobs: u64| format!("total jobs {jobs} refused {jobs} bytes 0 lines 0\n");
    for count in [MOST_JOBS - 1, MOST_JOBS] {
        let printed = printed(&write(&vec![[]; count]));
        assert_eq!(printed.lines().count(), count + 1);
        assert!(printed.ends_with(&last(count as u64)), "{printed}");
    }
    assert_refused(&write(&[[]; MOST_JOBS + 1]), 19, 5 * MOST_JOBS);
    assert_refused(&write(&[b"ab"; MOST_JOBS + 2]), 19, 7 * MOST_JOBS);
}

#[test]
fn at_one_offset_18_comes_before_19() {
    let full = write(&[[]; MOST_JOBS]);
    for end in [&[0x21, 0, 0, 0, 0][..], &[0x20, 0, 0], &[0x20, 1, 0, 0, 0]] {
        assert_refused(&[&full, end].concat(), 18, 5 * MOST_JOBS);
    }
}

#[test]
fn the_first_fault_decides() {
    let full = write(&[[]; MOST_JOBS]);
    assert_refused(&[&full[..], &[0x20, 0, 0, 0, 0, 0]].concat(), 19, 5 * MOST_JOBS);
    assert_refused(&[&[0][..], &full, &full].concat(), 18, 0);
    assert_refused(&[&full[..500], &[0x22], &full].concat(), 18, 500);
}

#[test]
fn the_book_is_walked_before_any_job_runs() {
    assert_refused(&[&write(&[lone_close(), Vec::new()])[..], &[0]].concat(), 18, 20);
}

// The lines

#[test]
fn an_empty_book_prints_the_total_line_alone() {
    assert_prints::<&[u8]>(&[], "total jobs 0 refused 0 bytes 0 lines 0\n");
    assert_eq!(report(&[], HELD).tally, Tally::default());
}

#[test]
fn each_job_has_a_line_and_the_last_line_has_the_sums() {
    needs_source!();
    let jobs = [job_b(), lone_close(), with_token("Number", "12"), Vec::new(), job_b()];
    assert_prints(
        &jobs,
        "1 bytes 27 lines 4\n2 refused 12 at 0\n3 bytes 3 lines 1\n4 refused 14 at 0\n5 bytes 27 lines 4\n\
         total jobs 5 refused 2 bytes 57 lines 9\n",
    );
    let expected = Tally { jobs: 5, refused: 2, bytes: 57, lines: 9 };
    assert_eq!(report(&write(&jobs), HELD).tally, expected);
}

#[test]
fn an_empty_layout_has_0_bytes_and_0_lines_and_is_not_refused() {
    needs_source!();
    let empty = job::write(&plain(b"", nested_files(1)));
    assert_prints(&[empty], "1 bytes 0 lines 0\ntotal jobs 1 refused 0 bytes 0 lines 0\n");
}

#[test]
fn lines_are_bytes_10_in_the_output() {
    needs_source!();
    // The text has six newlines, of which the layout keeps the two in the token.
    let text = "\n\n'\n\n'\n\n";
    let mut tape = Vec::new();
    push_open(&mut tape, FILE, 0, 8);
    push_token(&mut tape, oracle::kinds::number("Whitespace"), 0, 2);
    push_token(&mut tape, oracle::kinds::number("StringToken"), 2, 6);
    push_close(&mut tape);
    assert_prints(
        &[job::write(&plain(text.as_bytes(), tape))],
        "1 bytes 5 lines 3\ntotal jobs 1 refused 0 bytes 5 lines 3\n",
    );
}

#[test]
fn each_job_is_answered_as_the_desks_program_answers_it() {
    needs_source!();
    for index in 0..500 {
        let Made::Job(job) = make(1, Class::Jobs, index) else { panic!("the class makes jobs") };
        if job.len() > MOST_BYTES - 5 {
            continue;
        }
        let alone = String::from_utf8(job::printed(&job)).unwrap();
        let report = printed(&write(&[job]));
        let line = report.lines().next().unwrap();
        let newlines = alone.matches('\n').count();
        assert!(
            line == format!("1 bytes {} lines {newlines}", alone.len()) || format!("{line}\n") == format!("1 {alone}"),
            "{line}, and alone {alone}"
        );
    }
}

#[test]
fn a_layout_above_the_programs_buffer_is_refused_with_13() {
    needs_source!();
    let of = |length: u32| {
        let mut tape = Vec::new();
        push_open(&mut tape, FILE, 0, 0);
        push_token(&mut tape, FILE, 0, length);
        push_token(&mut tape, FILE, 0, 32_000);
        push_close(&mut tape);
        job::write(&plain(&[b'x'; 40_000], tape))
    };
    assert_prints(&[of(33_535)], "1 bytes 65536 lines 1\ntotal jobs 1 refused 0 bytes 65536 lines 1\n");
    assert_prints(&[of(33_536)], "1 refused 13 at 65537\ntotal jobs 1 refused 1 bytes 0 lines 0\n");
}

#[test]
fn a_layout_that_reads_like_a_refusal_is_a_layout() {
    needs_source!();
    assert_prints(
        &[with_token("StringToken", "refused 9 at 0")],
        "1 bytes 15 lines 1\ntotal jobs 1 refused 0 bytes 15 lines 1\n",
    );
}

#[test]
fn the_tally_is_that_of_the_last_line_whatever_it_held() {
    needs_source!();
    for index in 0..300 {
        let Made::Book(book) = make(2, Class::Books, index) else { panic!("the class makes books") };
        let reported = report(&book, HELD);
        let text = String::from_utf8(reported.printed.clone()).unwrap();
        let (lines, last) = text.strip_suffix('\n').unwrap().rsplit_once('\n').unwrap_or(("", text.trim_end()));
        let Tally { jobs, refused, bytes, lines: newlines } = reported.tally;
        assert_eq!(last, format!("total jobs {jobs} refused {refused} bytes {bytes} lines {newlines}"));
        let words = lines.lines().map(|line| line.split(' ').collect::<Vec<_>>()).collect::<Vec<_>>();
        let sum = |place: usize| -> u64 {
            words.iter().filter(|line| line[1] == "bytes").map(|line| line[place].parse::<u64>().unwrap()).sum()
        };
        assert_eq!((sum(2), sum(4)), (bytes, newlines));
        assert_eq!(words.iter().filter(|line| line[1] == "refused").count() as u64, refused);
        assert_eq!(words.iter().map(|line| line[0].parse().unwrap()).collect::<Vec<u64>>(), Vec::from_iter(1..=jobs));
        assert_eq!(reported, report(&book, Tally::default()));
    }
}

// The library's call

/// The call with this output space, a tally and a working space with something in them.
fn lent(book: Vec<u8>, more: u64, space: usize) -> ReportCase {
    ReportCase { book, more, tally: HELD, work: vec![0xEE; job::BUFFER], space: vec![0xAA; space] }
}

#[test]
fn as_much_is_put_as_there_is_room_for() {
    needs_source!();
    let book = write(&[job_b(), lone_close()]);
    let printed = printed(&book).into_bytes();
    for (space, put) in [(0, 0), (1, 1), (printed.len() - 1, printed.len() - 1), (printed.len() + 5, printed.len())] {
        let called = answer(&lent(book.clone(), 0, space));
        assert_eq!(called.put, put);
        assert_eq!(called.space, [&printed[..put], &vec![0xAA; space - put]].concat());
        assert_eq!(called.tally, Tally { jobs: 2, refused: 1, bytes: 27, lines: 4 });
    }
}

#[test]
fn a_book_that_more_follows_is_too_long() {
    for book in [Vec::new(), vec![0], vec![0x20; MOST_BYTES + 1]] {
        let case = lent(book, 1, 40);
        let called = answer(&case);
        assert_eq!(called.space[..called.put], *b"refused 18 at 65536\n");
        assert_eq!((called.tally, called.work), (HELD, case.work));
    }
}

#[test]
fn each_layout_stands_over_the_front_of_the_one_before_it() {
    needs_source!();
    let book = write(&[job_b(), lone_close(), with_token("Number", "12"), Vec::new()]);
    let called = answer(&lent(book, 0, 0));
    assert_eq!(called.work[..28], *b"12\nECT\n    a,\n    b\nFROM t\n\xEE");
}

#[test]
fn a_refused_book_leaves_what_is_lent_as_it_was() {
    let case = lent([write(&[lone_close()]), vec![0]].concat(), 0, 20);
    let called = answer(&case);
    assert_eq!(called.space, b"refused 18 at 15\n\xAA\xAA\xAA");
    assert_eq!((called.tally, called.work), (HELD, case.work));
}

// Masked books

/// A book of two masked jobs, one unchanged and one refused.
fn masked_books() -> [Vec<u8>; 2] {
    let book = |one: &str, other: &str| {
        write(&[with_token("StringToken", one), job_b(), lone_close(), with_token("QuotedIdentifier", other)])
    };
    [book("'Gdynia'", "`größe`"), book("'******'", "`*******`")]
}

#[test]
fn masked_books_have_one_report() {
    needs_source!();
    let [first, second] = masked_books();
    assert_ne!(first, second);
    assert!(differ_as_masked(&first, &second));
    assert_eq!(claim(&first, &second), Ok(()));
    assert_eq!(
        printed(&first),
        "1 bytes 9 lines 1\n2 bytes 27 lines 4\n3 refused 12 at 0\n4 bytes 10 lines 1\n\
         total jobs 4 refused 1 bytes 46 lines 6\n"
    );
}

#[test]
fn masked_books_that_are_refused_are_refused_alike() {
    needs_source!();
    let [first, second] = masked_books();
    for end in [&[0x20, 0][..], &[0], &[0; MOST_BYTES], &write(&[[]; MOST_JOBS])] {
        let books = [&first, &second].map(|book| [book, end].concat());
        assert!(differ_as_masked(&books[0], &books[1]));
        assert_eq!(claim(&books[0], &books[1]), Ok(()));
        assert!(jobs(&books[0]).is_err());
    }
}

/// Two books that the conditions rule out, and that have other reports.
#[track_caller]
fn assert_needed(first: &[u8], second: &[u8]) {
    assert!(!differ_as_masked(first, second));
    assert!(claim(first, second).is_err());
}

#[test]
fn each_condition_on_two_books_is_needed() {
    needs_source!();
    let one = |job: &[u8]| write(&[job]);
    let job = with_token("StringToken", "'ab'");
    // Lengths, commands, settings, tapes.
    assert_needed(&one(&job), &one(&with_token("StringToken", "'a'")));
    assert_needed(&one(&job), &[&[0x21], &one(&job)[1..]].concat());
    assert_needed(&one(&with_token("Number", "1")), &one(&[&[0x10, 17], &with_token("Number", "1")[2..]].concat()));
    assert_needed(&one(&job), &one(&with_token("Whitespace", "'ab'")));
    // Texts: newlines, the ends of a token, tokens that are not quoted.
    assert_needed(&one(&job), &one(&with_token("StringToken", "'\nb'")));
    assert_needed(&one(&job), &one(&with_token("StringToken", "'ab ")));
    assert_needed(&one(&with_token("Comment", "--b")), &one(&with_token("Comment", "--\n")));
    // Jobs that are refused.
    let ill_formed = |byte: u8| one(&job::write(&plain(&[byte], vec![3])));
    assert_needed(&ill_formed(0xFF), &ill_formed(b'a'));
}

#[test]
fn jobs_whose_header_or_tape_is_refused_are_equal() {
    needs_source!();
    let lone_close = |text: &[u8]| write(&[job::write(&plain(text, vec![3]))]);
    assert!(!differ_as_masked(&lone_close(b"a"), &lone_close(b"b")));
    assert!(!differ_as_masked(&write(&[[0x10]]), &write(&[[0x11]])));
    assert!(differ_as_masked(&lone_close(b"a"), &lone_close(b"a")));
}
