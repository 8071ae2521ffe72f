//! Answers 1 to 13, 15 and 16: the documents' small inputs with their places, the order of the tests, and the limits.

mod common;

use common::{assert_refused, call, nested_files, plain, sheet_b, FILE};
use oracle::answers::{answer, formatted, in_no_space, Answer, Case};
use oracle::kinds::{BARE_WORD, COUNT, NOT_CARRIED};
use oracle::tape::{push_close, push_open, push_token, MOST_BYTES};

fn one_open(kind: u16) -> Vec<u8> {
    one_open_over(kind, 0, 0)
}

fn one_open_over(kind: u16, start: u32, end: u32) -> Vec<u8> {
    let mut tape = Vec::new();
    push_open(&mut tape, kind, start, end);
    tape
}

/// A File over an empty span that holds a token of this span.
fn file_with_token(start: u32, end: u32) -> Vec<u8> {
    file_with(FILE, start, end)
}

/// The same with a token of this kind.
fn file_with(kind: u16, start: u32, end: u32) -> Vec<u8> {
    let mut tape = one_open(FILE);
    push_token(&mut tape, kind, start, end);
    push_close(&mut tape);
    tape
}

fn file_over(start: u32, end: u32) -> Vec<u8> {
    let mut tape = one_open_over(FILE, start, end);
    push_close(&mut tape);
    tape
}

#[test]
fn width_17_is_1() {
    assert_refused(&Case { width: 17, ..plain(b"", nested_files(1)) }, 1, 0);
}

#[test]
fn widths_are_read_in_all_64_bits() {
    for width in [256 + 4, (1 << 32) + 4, u64::MAX] {
        assert_refused(&Case { width, ..plain(b"", nested_files(1)) }, 1, 0);
    }
}

#[test]
fn case_2_is_2() {
    assert_refused(&Case { case: 2, ..plain(b"", nested_files(1)) }, 2, 0);
}

#[test]
fn cases_are_read_in_all_64_bits() {
    for case in [256, 257, (1 << 32) + 1, u64::MAX] {
        assert_refused(&Case { case, ..plain(b"", nested_files(1)) }, 2, 0);
    }
}

#[test]
fn text_of_262145_blanks_is_3() {
    assert_refused(&plain(&[b' '; MOST_BYTES + 1], nested_files(1)), 3, 0);
}

#[test]
fn a_text_that_is_not_well_formed_is_4_where_the_fault_begins() {
    for (text, place) in [
        (&b"\xC3\x28"[..], 0),
        (b"a\xE2\x82", 1),
        (b"\xF4\x90\x80\x80", 0),
        (b"\x80", 0),
        (b"a\x7F\x80\xFF", 2),
        (b"\xC3\xA9\xC3", 2),
        (b"\xC0\xAF", 0),
        (b"\xED\xA0\x80", 0),
        (b"\xF0\x9F\x98\x80\x80", 4),
    ] {
        assert_refused(&plain(text, nested_files(1)), 4, place);
    }
}

#[test]
fn bytes_c3_a9_are_a_character() {
    needs_source!();
    assert_eq!(in_no_space(&plain(b"\xC3\xA9", nested_files(1))), Answer { number: 0, second: 0 });
    assert_eq!(formatted(&plain(b"\xC3\xA9", file_with_token(0, 2))).unwrap(), "é\n");
}

#[test]
fn tape_of_262145_closes_is_5() {
    assert_refused(&plain(b"", vec![3; MOST_BYTES + 1]), 5, 0);
}

#[test]
fn tape_of_262144_closes_is_read() {
    assert_refused(&plain(b"", vec![3; MOST_BYTES]), 12, 0);
}

#[test]
fn command_04_is_6_at_0() {
    assert_refused(&plain(b"", vec![4]), 6, 0);
    assert_refused(&plain(b"", vec![0]), 6, 0);
}

#[test]
fn cut_command_is_7_at_0() {
    assert_refused(&plain(b"", vec![1, 0, 0]), 7, 0);
}

#[test]
fn kind_past_the_last_is_8() {
    assert_refused(&plain(b"", one_open(65_535)), 8, 0);
    assert_refused(&plain(b"", one_open(COUNT)), 8, 0);
}

#[test]
fn token_of_a_kind_past_the_last_is_8() {
    let mut tape = one_open(FILE);
    push_token(&mut tape, COUNT, 0, 0);
    assert_refused(&plain(b"", tape), 8, 11);
}

#[test]
fn each_kind_not_carried_is_9_as_a_node() {
    for (name, kind) in NOT_CARRIED {
        println!("{name}");
        assert_refused(&plain(b"", one_open(kind)), 9, 0);
    }
}

#[test]
fn token_past_the_text_is_10_at_11() {
    assert_refused(&plain(b"", file_with_token(0, 1)), 10, 11);
}

#[test]
fn token_with_start_above_end_is_10() {
    assert_refused(&plain(b"ab", file_with_token(2, 1)), 10, 11);
}

#[test]
fn node_past_the_text_is_10() {
    assert_refused(&plain(b"", file_over(0, 1)), 10, 0);
    assert_refused(&plain(b"", file_over(u32::MAX, u32::MAX)), 10, 0);
}

#[test]
fn a_token_that_starts_or_ends_inside_a_character_is_15() {
    for (start, end) in [(1, 3), (0, 2), (2, 3), (1, 1), (1, 2), (2, 4)] {
        assert_refused(&plain("€a".as_bytes(), file_with_token(start, end)), 15, 11);
    }
}

#[test]
fn a_node_that_starts_or_ends_inside_a_character_is_15() {
    for (start, end) in [(1, 4), (0, 3), (2, 2)] {
        assert_refused(&plain("😀".as_bytes(), file_over(start, end)), 15, 0);
    }
}

#[test]
fn a_bare_word_beyond_ascii_is_16() {
    for text in ["é", "ſelect", "aß", "a\u{300}", "日"] {
        assert_refused(&plain(text.as_bytes(), file_with(BARE_WORD, 0, text.len() as u32)), 16, 11);
    }
}

#[test]
fn the_65th_open_node_is_11_at_704() {
    assert_refused(&plain(b"", nested_files(65)), 11, 704);
}

#[test]
fn close_with_no_node_open_is_12_at_0() {
    assert_refused(&plain(b"", vec![3]), 12, 0);
}

#[test]
fn token_with_no_node_open_is_12() {
    let mut tape = Vec::new();
    push_token(&mut tape, FILE, 0, 0);
    assert_refused(&plain(b"", tape), 12, 0);
}

#[test]
fn any_whole_command_after_the_root_is_12() {
    let open = one_open(FILE);
    let mut token = Vec::new();
    push_token(&mut token, FILE, 0, 0);
    for command in [open, token, vec![3]] {
        assert_refused(&plain(b"", [nested_files(1), command].concat()), 12, 12);
    }
}

#[test]
fn after_the_root_a_wrong_byte_is_6_and_a_cut_command_7() {
    assert_refused(&plain(b"", [nested_files(1), vec![9]].concat()), 6, 12);
    assert_refused(&plain(b"", [nested_files(1), vec![2]].concat()), 7, 12);
}

#[test]
fn tape_without_a_finished_root_is_12_at_its_length() {
    assert_refused(&plain(b"", Vec::new()), 12, 0);
    assert_refused(&plain(b"", one_open(FILE)), 12, 11);
}

#[test]
fn settings_and_sizes_are_tried_in_order() {
    let long = vec![0x80; MOST_BYTES + 1];
    let tape = vec![4; MOST_BYTES + 1];
    let mut case = Case { width: 17, case: 2, ..plain(&long, tape) };
    assert_refused(&case, 1, 0);
    case.width = 16;
    assert_refused(&case, 2, 0);
    case.case = 1;
    assert_refused(&case, 3, 0);
    case.text.truncate(MOST_BYTES);
    assert_refused(&case, 4, 0);
    case.text.clear();
    assert_refused(&case, 5, 0);
    case.tape.truncate(MOST_BYTES);
    assert_refused(&case, 6, 0);
}

#[test]
fn within_a_command_12_precedes_8_9_and_10() {
    for kind in [COUNT, NOT_CARRIED[0].1, FILE] {
        let mut tape = nested_files(1);
        push_open(&mut tape, kind, 0, 1);
        assert_refused(&plain(b"", tape), 12, 12);
    }
}

#[test]
fn within_a_command_8_precedes_10_and_11() {
    let mut tape = one_open(FILE).repeat(64);
    push_open(&mut tape, COUNT, 0, 1);
    assert_refused(&plain(b"", tape), 8, 704);
}

#[test]
fn within_a_command_9_precedes_10_which_precedes_11() {
    let mut tape = one_open(FILE).repeat(64);
    push_open(&mut tape, NOT_CARRIED[0].1, 0, 1);
    assert_refused(&plain(b"", tape), 9, 704);
    let mut tape = one_open(FILE).repeat(64);
    push_open(&mut tape, FILE, 0, 1);
    assert_refused(&plain(b"", tape), 10, 704);
}

#[test]
fn within_a_command_12_8_9_and_10_precede_15() {
    let after_the_root = [nested_files(1), one_open_over(FILE, 1, 2)].concat();
    assert_refused(&plain("é".as_bytes(), after_the_root), 12, 12);
    assert_refused(&plain("é".as_bytes(), one_open_over(COUNT, 1, 2)), 8, 0);
    assert_refused(&plain("é".as_bytes(), one_open_over(NOT_CARRIED[0].1, 1, 2)), 9, 0);
    assert_refused(&plain("é".as_bytes(), one_open_over(FILE, 1, 3)), 10, 0);
    assert_refused(&plain("é".as_bytes(), file_with_token(1, 3)), 10, 11);
    assert_refused(&plain("é".as_bytes(), file_with_token(1, 0)), 10, 11);
}

#[test]
fn within_a_command_10_and_15_precede_16() {
    assert_refused(&plain("é".as_bytes(), file_with(BARE_WORD, 0, 3)), 10, 11);
    assert_refused(&plain("éé".as_bytes(), file_with(BARE_WORD, 1, 4)), 15, 11);
    assert_refused(&plain("éé".as_bytes(), file_with(BARE_WORD, 0, 3)), 15, 11);
}

#[test]
fn within_a_command_15_precedes_11() {
    let mut tape = one_open(FILE).repeat(64);
    push_open(&mut tape, FILE, 1, 2);
    assert_refused(&plain("é".as_bytes(), tape), 15, 704);
}

#[test]
fn answers_4_and_5_precede_15_and_16() {
    assert_refused(&plain(b"\xC3\xA9\xFF", file_with_token(1, 2)), 4, 2);
    assert_refused(&plain("é".as_bytes(), [file_with_token(1, 2), vec![3; MOST_BYTES]].concat()), 5, 0);
}

#[test]
fn below_a_copied_node_15_and_16_are_looked_for_too() {
    let error = 0;
    let tape = [one_open(error), one_open_over(FILE, 1, 2)].concat();
    assert_refused(&plain("é".as_bytes(), tape), 15, 11);
    let mut tape = one_open(error);
    push_token(&mut tape, BARE_WORD, 0, 2);
    assert_refused(&plain("é".as_bytes(), tape), 16, 11);
}

#[test]
fn the_first_faulty_command_decides() {
    let tape = [file_with_token(0, 1), vec![9]].concat();
    assert_refused(&plain(b"", tape), 10, 11);
    let mut tape = one_open(FILE);
    push_token(&mut tape, BARE_WORD, 0, 2);
    push_token(&mut tape, FILE, 1, 9);
    assert_refused(&plain("é".as_bytes(), tape), 16, 11);
}

#[test]
fn nodes_below_a_copied_node_are_checked_too() {
    let error = 0;
    let tape = [one_open(error), one_open(NOT_CARRIED[0].1)].concat();
    assert_refused(&plain(b"", tape), 9, 11);
}

#[test]
fn b_with_26_bytes_is_13_with_the_needed_length() {
    needs_source!();
    let answered = answer(&Case { space: vec![0xEE; 26], ..call(sheet_b) });
    assert_eq!(answered.laid_out, Answer { number: 13, second: 27 });
    assert_eq!(answered.space, vec![0xEE; 26]);
}

#[test]
fn b_has_one_length_whatever_the_space() {
    needs_source!();
    for length in 0..40 {
        let answered = answer(&Case { space: vec![0xEE; length], ..call(sheet_b) });
        assert_eq!(
            answered.laid_out,
            Answer { number: if length < 27 { 13 } else { 0 }, second: 27 },
            "{length} bytes"
        );
    }
    assert_eq!(in_no_space(&call(sheet_b)), Answer { number: 13, second: 27 });
}

#[test]
fn what_needs_no_byte_is_accepted_in_no_space() {
    needs_source!();
    let blanks = plain(b"  ", file_with_token(0, 2));
    for empty in [plain(b"", nested_files(1)), plain(b"a", file_over(1, 0)), blanks] {
        assert_eq!(in_no_space(&empty), Answer { number: 0, second: 0 });
        assert_eq!(answer(&Case { space: vec![0xEE; 2], ..empty }).space, vec![0xEE; 2]);
    }
}

#[test]
fn the_tape_is_refused_before_13() {
    needs_source!();
    let case = plain(b"", file_with_token(0, 1));
    assert_eq!(answer(&case).laid_out.number, 10);
}

#[test]
fn width_16_is_accepted() {
    needs_source!();
    let case = Case { width: 16, ..call(sheet_b) };
    assert_eq!(formatted(&case).unwrap().len(), 27 + 2 * 12);
}

#[test]
fn the_64th_open_node_is_accepted() {
    needs_source!();
    assert_eq!(in_no_space(&plain(b"", nested_files(64))), Answer { number: 0, second: 0 });
}

#[test]
fn text_of_262144_bytes_is_accepted() {
    needs_source!();
    let case = plain(&[b'x'; MOST_BYTES], file_with_token(0, MOST_BYTES as u32));
    assert_eq!(in_no_space(&case), Answer { number: 13, second: MOST_BYTES as u64 + 1 });
}

#[test]
fn tokens_may_have_a_kind_that_is_not_carried() {
    needs_source!();
    let mut tape = one_open(FILE);
    push_token(&mut tape, NOT_CARRIED[0].1, 0, 1);
    push_close(&mut tape);
    assert_eq!(formatted(&plain(b"a", tape)).unwrap(), "a\n");
}

#[test]
fn node_with_start_above_end_may_pass_the_text() {
    needs_source!();
    assert_eq!(formatted(&plain(b"", file_over(u32::MAX, 7))).unwrap(), "");
}

#[test]
fn node_with_start_above_end_may_name_places_inside_a_character() {
    needs_source!();
    assert_eq!(formatted(&plain("😀".as_bytes(), file_over(3, 1))).unwrap(), "");
}

#[test]
fn a_token_of_another_kind_may_hold_any_character() {
    needs_source!();
    for kind in (0..COUNT).filter(|kind| *kind != BARE_WORD) {
        let text = "ſ€😀";
        let formatted = formatted(&plain(text.as_bytes(), file_with(kind, 0, text.len() as u32)));
        assert!(formatted.is_ok(), "kind {kind}");
    }
}

#[test]
fn an_empty_token_at_the_text_end_is_accepted() {
    needs_source!();
    assert_eq!(formatted(&plain(b"ab", file_with_token(2, 2))).unwrap(), "");
    assert_eq!(formatted(&plain("é".as_bytes(), file_with(BARE_WORD, 2, 2))).unwrap(), "");
}

#[test]
fn a_layout_that_fits_only_after_trimming_is_accepted() {
    needs_source!();
    let text = [b"a".as_slice(), &[b' '; 2000]].concat();
    let mut tape = file_with_token(0, 2001);
    tape.pop();
    (0..40).for_each(|_| push_token(&mut tape, FILE, 1, 2001));
    push_close(&mut tape);
    let answered = answer(&Case { space: vec![0; 2], ..plain(&text, tape) });
    assert_eq!(answered.laid_out, Answer { number: 0, second: 2 });
    assert_eq!(answered.space, b"a\n");
}
