//! The refusals of documents 01 and 02 (E1, E6) through the crate: number, name, place and words, and the output space left as it was.

mod common;

use common::{example, nested_files, open, token, CLOSE, LAID_OUT, PLAIN};
use qdesk::{book, layout, layout_to_vec, needed_length, report, Case, Error, Kind, Refusal, Settings, Tally};
use qdesk::{MOST_BOOK, MOST_BYTES, MOST_JOBS, MOST_OPEN};

/// The number of the first kind past the last.
const PAST_THE_LAST: u16 = 258;

/// Checks a refusal's four faces.
fn assert_error(error: Error, refusal: Refusal, number: u64, place: u64, words: &str) {
    assert_eq!((error.refusal(), error.number(), error.place()), (refusal, number, place));
    assert_eq!(error.to_string(), words);
}

/// Checks that all three functions refuse a call alike, and that nothing is written.
fn assert_refused(call: (&[u8], &[u8], Settings), refusal: Refusal, number: u64, place: u64, words: &str) {
    let (text, tape, settings) = call;
    let mut space = [0xEE; 40];
    assert_error(needed_length(text, tape, settings).unwrap_err(), refusal, number, place, words);
    assert_error(layout(text, tape, settings, &mut space).unwrap_err(), refusal, number, place, words);
    assert_error(layout_to_vec(text, tape, settings).unwrap_err(), refusal, number, place, words);
    assert_eq!(space, [0xEE; 40], "a refusal writes no byte");
}

#[test]
fn width_17_is_1() {
    for indent_width in [17, 256 + 4, (1 << 32) + 4, u64::MAX] {
        let settings = Settings { indent_width, ..PLAIN };
        let words = "indent width above 16 (refusal 1)";
        assert_refused((b"", &nested_files(1), settings), Refusal::IndentWidth, 1, 0, words);
    }
}

#[test]
fn case_2_is_2() {
    for case in [2, 256, (1 << 32) + 1, u64::MAX] {
        let settings = Settings { case: Case(case), ..PLAIN };
        assert_refused((b"", &nested_files(1), settings), Refusal::CaseByte, 2, 0, "case above 1 (refusal 2)");
    }
}

#[test]
fn text_of_262145_blanks_is_3() {
    let text = [b' '; MOST_BYTES + 1];
    let words = "text longer than 262,144 bytes (refusal 3)";
    assert_refused((&text, &nested_files(1), PLAIN), Refusal::TextTooLong, 3, 0, words);
}

#[test]
fn text_that_is_not_well_formed_is_4() {
    for (text, place) in [
        (&b"\xC3\x28"[..], 0),
        (b"a\xE2\x82", 1),
        (b"\xF4\x90\x80\x80", 0),
        (b"\x80", 0),
        (b"\xED\xA0\x80", 0),
        (b"\xC3\xA9\xC0\xAF", 2),
    ] {
        let words = format!("text is not well-formed UTF-8 (refusal 4) at text offset {place}");
        assert_refused((text, &nested_files(1), PLAIN), Refusal::NotUtf8, 4, place, &words);
    }
}

#[test]
fn tape_of_262145_closes_is_5() {
    let tape = CLOSE.repeat(MOST_BYTES + 1);
    let words = "tape longer than 262,144 bytes (refusal 5)";
    assert_refused((b"", &tape, PLAIN), Refusal::TapeTooLong, 5, 0, words);
}

#[test]
fn command_04_is_6() {
    let words = "command is not 01, 02 or 03 (refusal 6) at tape offset 0";
    assert_refused((b"", &[4], PLAIN), Refusal::UnknownCommand, 6, 0, words);
}

#[test]
fn cut_command_is_7() {
    let words = "command cut by the tape's end (refusal 7) at tape offset 0";
    assert_refused((b"", &[1, 0, 0], PLAIN), Refusal::CutCommand, 7, 0, words);
}

#[test]
fn kind_past_the_last_is_8() {
    for kind in [PAST_THE_LAST, 65_535] {
        let words = "kind number past the last kind (refusal 8) at tape offset 0";
        assert_refused((b"", &open(kind, 0, 0), PLAIN), Refusal::UnknownKind, 8, 0, words);
    }
}

#[test]
fn set_statement_is_9() {
    let words = "node of a kind that is not carried (refusal 9) at tape offset 0";
    assert_refused((b"", &open(Kind::SetStatement, 0, 0), PLAIN), Refusal::KindNotCarried, 9, 0, words);
}

#[test]
fn span_outside_the_text_is_10() {
    let words = "token or node ends past the text, or token starts after its end (refusal 10) at tape offset 11";
    for token in [token(Kind::File, 0, 1), token(Kind::File, 1, 0)] {
        let tape = [open(Kind::File, 0, 0), token, CLOSE.to_vec()].concat();
        assert_refused((b"", &tape, PLAIN), Refusal::SpanOutside, 10, 11, words);
    }
}

#[test]
fn span_inside_a_character_is_15() {
    let words = "token or node starts or ends inside a character (refusal 15) at tape offset 11";
    for inside in
        [token(Kind::Number, 0, 1), token(Kind::Number, 1, 2), token(Kind::Number, 1, 1), open(Kind::File, 1, 2)]
    {
        let tape = [open(Kind::File, 0, 2), inside, CLOSE.to_vec()].concat();
        assert_refused(("é".as_bytes(), &tape, PLAIN), Refusal::SpanInsideCharacter, 15, 11, words);
    }
}

#[test]
fn bare_word_beyond_ascii_is_16() {
    let words = "bare word with a byte above 127 (refusal 16) at tape offset 11";
    let tape = [open(Kind::ColumnReference, 0, 2), token(Kind::BareWord, 0, 2), CLOSE.to_vec()].concat();
    assert_refused(("é".as_bytes(), &tape, PLAIN), Refusal::WordNotAscii, 16, 11, words);
}

#[test]
fn within_a_command_the_order_is_10_15_16_11() {
    let with = |command: Vec<u8>| [open(Kind::File, 0, 4), command].concat();
    let refusal = |tape: Vec<u8>| needed_length("éé".as_bytes(), &tape, PLAIN).unwrap_err().refusal();
    assert_eq!(refusal(with(token(Kind::BareWord, 1, 5))), Refusal::SpanOutside);
    assert_eq!(refusal(with(token(Kind::BareWord, 1, 4))), Refusal::SpanInsideCharacter);
    assert_eq!(refusal(with(token(Kind::BareWord, 0, 4))), Refusal::WordNotAscii);
    let sixty_four = open(Kind::File, 0, 0).repeat(MOST_OPEN);
    assert_eq!(refusal([sixty_four, open(Kind::File, 1, 4)].concat()), Refusal::SpanInsideCharacter);
}

#[test]
fn a_65th_open_node_is_11() {
    let words = "65th node opened (refusal 11) at tape offset 704";
    assert_refused((b"", &nested_files(MOST_OPEN + 1), PLAIN), Refusal::TooDeep, 11, 704, words);
}

#[test]
fn close_with_no_node_open_is_12() {
    let words = "command outside the root node, or root not closed (refusal 12) at tape offset 0";
    assert_refused((b"", &CLOSE, PLAIN), Refusal::NotOneRoot, 12, 0, words);
}

#[test]
fn no_finished_root_is_12_at_the_tapes_length() {
    let words = "command outside the root node, or root not closed (refusal 12) at tape offset 0";
    assert_refused((b"", &[], PLAIN), Refusal::NotOneRoot, 12, 0, words);
    let words = "command outside the root node, or root not closed (refusal 12) at tape offset 11";
    assert_refused((b"", &open(Kind::File, 0, 0), PLAIN), Refusal::NotOneRoot, 12, 11, words);
}

#[test]
fn b_in_26_bytes_is_13_with_the_needed_length() {
    let (text, tape) = (example::TEXT.as_bytes(), example::tape().unwrap());
    let mut space = [0xEE; 26];
    let error = layout(text, &tape, PLAIN, &mut space).unwrap_err();
    let words = "output space too short (refusal 13): 27 bytes are needed";
    assert_error(error, Refusal::SpaceTooShort, 13, 27, words);
    assert_eq!(space, [0xEE; 26], "a refusal writes no byte");
    assert_eq!(needed_length(text, &tape, PLAIN), Ok(LAID_OUT.len()));
}

/// Checks that a book is refused so, and that the tally stays.
fn assert_book_refused(book: &[u8], refusal: Refusal, number: u64, place: u64, words: &str) {
    let held = Tally { jobs: 1, refused: 2, bytes: 3, lines: u64::MAX };
    let mut tally = held;
    assert_error(report(book, &mut tally).unwrap_err(), refusal, number, place, words);
    assert_eq!(tally, held, "a refused book leaves the tally as it was");
}

#[test]
fn a_book_command_that_is_wrong_or_cut_is_18() {
    let words = "book command wrong or cut short, or book longer than 65,536 bytes (refusal 18) at book offset 5";
    for end in [&[0][..], &[0x20, 0, 0, 0], &[0x20, 1, 0, 0, 0], &[0x20, 255, 255, 255, 255]] {
        assert_book_refused(&[&book(&[b""]), end].concat(), Refusal::BookCommand, 18, 5, words);
    }
}

#[test]
fn a_book_of_65537_bytes_is_18() {
    let words = "book command wrong or cut short, or book longer than 65,536 bytes (refusal 18) at book offset 65536";
    assert_book_refused(&[0; MOST_BOOK + 1], Refusal::BookCommand, 18, 65_536, words);
    assert_book_refused(&book(&[[0; MOST_BOOK - 4]]), Refusal::BookCommand, 18, 65_536, words);
    assert!(report(&book(&[[0; MOST_BOOK - 5]]), &mut Tally::default()).is_ok());
}

#[test]
fn a_257th_job_is_19() {
    let words = "257th job (refusal 19) at book offset 1280";
    assert_book_refused(&book(&[b""; MOST_JOBS + 1]), Refusal::TooManyJobs, 19, 1280, words);
    assert!(report(&book(&[b""; MOST_JOBS]), &mut Tally::default()).is_ok());
}

#[test]
fn the_list_of_refusals_is_in_the_order_of_the_numbers() {
    let numbers: Vec<u64> = Refusal::ALL.iter().map(|refusal| *refusal as u64).collect();
    assert_eq!(numbers, (1..=13).chain(15..=19).collect::<Vec<u64>>());
}
