//! The map call: what it writes to both spaces, what it leaves alone, and its refusals.

mod common;

use common::{example, nested_files, open, token, CLOSE, LAID_OUT, PLAIN};
use qdesk::{layout_map, layout_map_to_vec, layout_to_vec, Error, Kind, Mapped, Refusal, Spot, MOST_BYTES, MOST_OPEN};

/// The map of the example's call: select, white space, a, comma, b, white space, from, white space, t.
const MAP: [u64; 18] = [1, 1, 0, 0, 2, 5, 2, 6, 3, 5, 0, 0, 4, 1, 0, 0, 4, 6];

/// What fills the spaces before a call.
const BYTE: u8 = 0xEE;
const NUMBER: u64 = u64::MAX;

/// The example's call in filled spaces of these lengths: the answer, and both spaces afterwards.
fn mapped(bytes: usize, numbers: usize) -> (Result<usize, Error>, Vec<u8>, Vec<u64>) {
    let (mut out, mut map) = (vec![BYTE; bytes], vec![NUMBER; numbers]);
    let tape = example::tape().unwrap();
    (layout_map(example::TEXT.as_bytes(), &tape, PLAIN, &mut out, &mut map), out, map)
}

#[test]
fn spaces_of_just_the_lengths_are_enough() {
    assert_eq!(mapped(27, 18), (Ok(27), LAID_OUT.to_vec(), MAP.to_vec()));
}

#[test]
fn bytes_and_numbers_after_the_last_stay() {
    let (length, out, map) = mapped(30, 23);
    assert_eq!(length, Ok(27));
    assert_eq!(out, [LAID_OUT, &[BYTE; 3]].concat());
    assert_eq!(map, [&MAP[..], &[NUMBER; 5]].concat());
}

#[test]
fn too_few_numbers_are_17_with_the_count_that_is_needed() {
    for numbers in [0, 1, 17] {
        let (answer, out, map) = mapped(27, numbers);
        let error = answer.unwrap_err();
        assert_eq!((error.refusal(), error.number(), error.place()), (Refusal::MapTooShort, 17, 18));
        assert_eq!(error.to_string(), "map space too short (refusal 17): 18 numbers are needed");
        assert_eq!((out, map), (vec![BYTE; 27], vec![NUMBER; numbers]), "a refusal writes nothing");
    }
}

#[test]
fn where_both_spaces_are_too_short_it_is_13() {
    for numbers in [0, 17, 18, 23] {
        let (answer, out, map) = mapped(26, numbers);
        let error = answer.unwrap_err();
        assert_eq!((error.refusal(), error.place()), (Refusal::SpaceTooShort, 27));
        assert_eq!((out, map), (vec![BYTE; 26], vec![NUMBER; numbers]), "a refusal writes nothing");
    }
}

#[test]
fn a_faulty_tape_is_refused_before_both_spaces_are_looked_at() {
    let error = layout_map(b"", &[4], PLAIN, &mut [], &mut []).unwrap_err();
    assert_eq!((error.refusal(), error.place()), (Refusal::UnknownCommand, 0));
    assert_eq!(layout_map_to_vec(b"", &[4], PLAIN), Err(error));
    let error = layout_map_to_vec(b"", &vec![3; MOST_BYTES + 1], PLAIN).unwrap_err();
    assert_eq!(error.refusal(), Refusal::TapeTooLong);
}

#[test]
fn vectors_have_the_lengths_that_are_needed() {
    let tape = example::tape().unwrap();
    let Mapped { layout, spots } = layout_map_to_vec(example::TEXT.as_bytes(), &tape, PLAIN).unwrap();
    assert_eq!(layout, LAID_OUT);
    let numbers = |spot: &Option<Spot>| spot.map_or([0, 0], |spot| [spot.line, spot.column]);
    assert_eq!(spots.iter().flat_map(numbers).collect::<Vec<_>>(), MAP);
}

/// The map of a node of this kind with tokens of these kinds and spans, over the text.
fn map_of(text: &str, kind: Kind, tokens: &[(Kind, u32, u32)]) -> Vec<Option<(u64, u64)>> {
    let tokens: Vec<u8> = tokens.iter().flat_map(|(kind, start, end)| token(*kind, *start, *end)).collect();
    let tape = [open(kind, 0, text.len() as u32), tokens, CLOSE.to_vec()].concat();
    let mapped = layout_map_to_vec(text.as_bytes(), &tape, PLAIN).unwrap();
    assert_eq!(mapped.layout, layout_to_vec(text.as_bytes(), &tape, PLAIN).unwrap());
    mapped.spots.iter().map(|spot| spot.map(|Spot { line, column }| (line, column))).collect()
}

#[test]
fn columns_count_bytes_and_lines_newlines_in_texts() {
    let map = map_of("'é\n漢'7", Kind::QualifiedName, &[(Kind::StringToken, 0, 8), (Kind::Number, 8, 9)]);
    assert_eq!(map, [Some((1, 1)), Some((2, 5))]);
}

#[test]
fn a_sign_counts_and_what_is_empty_or_trimmed_or_copied_does_not() {
    let comma = map_of("ab,", Kind::ExpressionList, &[(Kind::Number, 0, 1), (Kind::Comma, 1, 2)]);
    assert_eq!(comma, [Some((1, 1)), Some((1, 2))]);
    let empty = map_of("ab", Kind::ExpressionList, &[(Kind::Number, 0, 1), (Kind::Comma, 1, 1)]);
    assert_eq!(empty, [Some((1, 1)), None]);
    let trimmed = map_of("a ", Kind::QualifiedName, &[(Kind::Number, 0, 1), (Kind::Number, 1, 2)]);
    assert_eq!(trimmed, [Some((1, 1)), None]);
    assert_eq!(map_of("ab", Kind::Error, &[(Kind::Number, 0, 1), (Kind::Number, 1, 2)]), [None, None]);
}

#[test]
fn no_tokens_need_no_numbers() {
    let tape = nested_files(MOST_OPEN);
    assert_eq!(layout_map(&[], &tape, PLAIN, &mut [], &mut []), Ok(0));
    assert_eq!(layout_map_to_vec(&[], &tape, PLAIN), Ok(Mapped { layout: Vec::new(), spots: Vec::new() }));
}

#[test]
fn numbers_are_needed_where_no_byte_is() {
    let tape = [open(Kind::File, 0, 1), token(Kind::Whitespace, 0, 1), CLOSE.to_vec()].concat();
    let error = layout_map(b" ", &tape, PLAIN, &mut [], &mut [NUMBER]).unwrap_err();
    assert_eq!((error.refusal(), error.place()), (Refusal::MapTooShort, 2));
    assert_eq!(layout_map_to_vec(b" ", &tape, PLAIN), Ok(Mapped { layout: Vec::new(), spots: vec![None] }));
}
