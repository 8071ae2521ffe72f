//! The map call: document 02's sentences and the readings, each on a small input, then properties on generated calls.

mod common;

use common::{call, nested_files, plain, sheet_b};
use oracle::answers::{Answer, Case};
use oracle::builder::Builder;
use oracle::kinds;
use oracle::map::{self, answer, MapCase, Mapped};
use oracle::tape::{push_close, push_open, push_token};

/// The pattern that fills both spaces before a call.
const BYTE: u8 = 0xEE;
const NUMBER: u64 = 0xEEEE_EEEE_EEEE_EEEE;

/// The call with spaces of these lengths.
fn lent(call: &Case, bytes: usize, numbers: usize) -> MapCase {
    MapCase { call: Case { space: vec![BYTE; bytes], ..call.clone() }, map: vec![NUMBER; numbers] }
}

fn lengths(call: &Case) -> (usize, usize) {
    let layout = map::laid_out(call).expect("an accepted call");
    (layout.output.len(), 2 * layout.places.len())
}

/// The layout, and line and column of each token. Five bytes and five numbers more than are needed are lent, which stay.
fn mapped(call: &Case) -> (String, Vec<[u64; 2]>) {
    let (bytes, numbers) = lengths(call);
    let Mapped { answer, space, map } = answer(&lent(call, bytes + 5, numbers + 5));
    assert_eq!(answer, Answer { number: 0, second: bytes as u64 });
    assert_eq!((&space[bytes..], &map[numbers..]), (&[BYTE; 5][..], &[NUMBER; 5][..]));
    let places = map[..numbers].chunks(2).map(|pair| [pair[0], pair[1]]).collect();
    (String::from_utf8(space[..bytes].to_vec()).expect("a layout"), places)
}

fn assert_map(call: &Case, output: &str, places: &[[u64; 2]]) {
    assert_eq!(mapped(call), (output.to_string(), places.to_vec()));
}

/// Checks an answer that leaves both spaces as they were.
fn assert_refused(case: MapCase, number: u64, second: u64) {
    let mapped = answer(&case);
    assert_eq!(mapped.answer, Answer { number, second });
    assert_eq!((mapped.space, mapped.map), (case.call.space, case.map), "a refusal writes nothing");
}

/// A root over no byte with tokens at these spans of a text.
fn tokens_over(text: &str, root: &str, tokens: &[(&str, u32, u32)]) -> Case {
    let mut tape = Vec::new();
    push_open(&mut tape, kinds::number(root), 0, 0);
    tokens.iter().for_each(|(kind, start, end)| push_token(&mut tape, kinds::number(kind), *start, *end));
    push_close(&mut tape);
    plain(text.as_bytes(), tape)
}

// The sentences of document 02

#[test]
fn the_course_sheet_s_b_has_its_lines_and_columns() {
    needs_source!();
    let places = [[1, 1], [0, 0], [2, 5], [2, 6], [3, 5], [0, 0], [4, 1], [0, 0], [4, 6]];
    assert_map(&call(sheet_b), "SELECT\n    a,\n    b\nFROM t\n", &places);
}

#[test]
fn columns_are_in_bytes() {
    needs_source!();
    let call = call(|b| {
        b.node("BinaryExpression", |b| {
            b.token("StringToken", "'é€😀'");
            b.token("Plus", "+");
            b.token("Number", "1");
        });
    });
    assert_map(&call, "'é€😀' + 1\n", &[[1, 1], [1, 13], [1, 15]]);
}

#[test]
fn a_fixed_sign_counts_as_its_token_s_byte() {
    needs_source!();
    for text in [",", "x", " ", "\n", "a long text\nof lines", "é"] {
        let call = call(|b| {
            b.node("ExpressionList", |b| {
                b.token("Number", "1");
                b.token("Comma", text);
                b.token("Number", "2");
            });
        });
        assert_map(&call, "1, 2\n", &[[1, 1], [1, 2], [1, 4]]);
    }
}

#[test]
fn every_fixed_sign_has_the_sign_s_place() {
    needs_source!();
    for (node, kind, sign) in [
        ("QueryList", "Semicolon", ";"),
        ("UnaryExpression", "Minus", "-"),
        ("FunctionCall", "OpeningRoundBracket", "("),
        ("FunctionCall", "ClosingRoundBracket", ")"),
        ("ArrayExpression", "OpeningSquareBracket", "["),
        ("ArrayExpression", "ClosingSquareBracket", "]"),
        ("MapExpression", "OpeningCurlyBrace", "{"),
        ("MapExpression", "ClosingCurlyBrace", "}"),
        ("MapExpression", "Colon", ":"),
    ] {
        let call = call(|b| {
            b.node(node, |b| {
                b.token("Number", "7");
                b.token(kind, "other text");
            });
        });
        assert_map(&call, &format!("7{sign}\n"), &[[1, 1], [1, 2]]);
    }
}

/// The same kind under a routine that copies its text: the place is that of the text.
#[test]
fn a_sign_s_kind_under_another_routine_has_its_text_s_place() {
    needs_source!();
    let call = call(|b| {
        b.node("ColumnReference", |b| {
            b.token("Number", "7");
            b.token("Comma", "\nx");
        });
    });
    assert_map(&call, "7\nx\n", &[[1, 1], [1, 2]]);
}

#[test]
fn a_token_that_is_not_written_gets_0_and_0() {
    needs_source!();
    let call = call(|b| {
        b.node("SelectStatement", |b| {
            b.token("Whitespace", "x");
            b.token("Number", "1");
            b.token("Semicolon", ";");
            b.token("Number", "2");
        });
    });
    assert_map(&call, "12\n", &[[0, 0], [1, 1], [0, 0], [1, 2]]);
}

#[test]
fn a_token_below_a_copied_node_gets_0_and_0() {
    needs_source!();
    let copied = |b: &mut Builder| {
        b.node("QueryList", |b| {
            b.token("Number", "1");
            b.node("Expression", |b| {
                b.token("Number", "\n2");
                b.node("Error", |b| b.token("Number", "3\n"));
                b.node("Expression", |b| b.token("Number", " 4"));
            });
            b.token("Number", "5");
        });
    };
    assert_map(&call(copied), "1\n23\n 45\n", &[[1, 1], [0, 0], [0, 0], [0, 0], [3, 3]]);
}

/// The copied node runs backwards and copies nothing; what lies below it is not written all the same.
#[test]
fn a_token_below_a_node_that_copies_nothing_gets_0_and_0() {
    needs_source!();
    let mut tape = Vec::new();
    push_open(&mut tape, kinds::number("QueryList"), 0, 0);
    push_open(&mut tape, kinds::number("Error"), 1, 0);
    push_token(&mut tape, kinds::number("Number"), 0, 1);
    push_close(&mut tape);
    push_token(&mut tape, kinds::number("Number"), 0, 1);
    push_close(&mut tape);
    assert_map(&plain(b"7", tape), "7\n", &[[0, 0], [1, 1]]);
}

#[test]
fn newlines_in_texts_and_copies_count_as_lines() {
    needs_source!();
    let call = call(|b| {
        b.node("QueryList", |b| {
            b.token("StringToken", "'a\nbc\n'");
            b.token("Comment", "/*\n*/");
            b.token("Comment", "--x\ny");
            b.node("Error", |b| b.token("Number", "4\n5"));
            b.token("Number", "6");
        });
    });
    let output = "'a\nbc\n' /*\n*/ --x\ny\n4\n56\n";
    assert_map(&call, output, &[[1, 1], [3, 3], [4, 4], [0, 0], [7, 2]]);
}

/// A newline that ends a token's text begins a line, though the layout's state knows of no line start.
#[test]
fn after_a_text_that_ends_in_a_newline_the_next_token_is_in_column_1() {
    needs_source!();
    let call = tokens_over("a\nb", "QualifiedName", &[("Number", 0, 2), ("Number", 2, 3)]);
    assert_map(&call, "a\nb\n", &[[1, 1], [2, 1]]);
}

/// A newline stands at the end of the line that it ends.
#[test]
fn a_text_that_begins_with_a_newline_begins_on_the_line_before() {
    needs_source!();
    let call = tokens_over("7\n8", "QualifiedName", &[("Number", 0, 1), ("Number", 1, 3), ("Number", 2, 3)]);
    assert_map(&call, "7\n88\n", &[[1, 1], [1, 2], [2, 2]]);
    assert_map(&tokens_over("\n8", "QualifiedName", &[("Number", 0, 2)]), "\n8\n", &[[1, 1]]);
}

#[test]
fn a_changed_case_keeps_the_place() {
    needs_source!();
    let call = call(|b| {
        b.node("FromClause", |b| {
            b.token("BareWord", "from");
            b.token("BareWord", "Host");
            b.token("BareWord", "null");
        });
    });
    assert_map(&call, "FROM HOST null\n", &[[1, 1], [1, 6], [1, 11]]);
}

#[test]
fn tokens_of_one_span_have_a_place_each() {
    needs_source!();
    let spans = [("Number", 0, 2), ("Number", 0, 2), ("Number", 1, 3), ("Number", 0, 3)];
    let call = tokens_over("abc", "ExpressionList", &spans);
    assert_map(&call, "ababbcabc\n", &[[1, 1], [1, 3], [1, 5], [1, 7]]);
}

// The readings

#[test]
fn an_empty_token_gets_0_and_0_even_where_a_sign_is_written() {
    needs_source!();
    assert_map(&tokens_over("", "ExpressionList", &[("Comma", 0, 0)]), ",\n", &[[0, 0]]);
    let call = tokens_over("x", "ExpressionList", &[("Number", 0, 0), ("Comma", 1, 1), ("Number", 0, 1)]);
    assert_map(&call, ", x\n", &[[0, 0], [0, 0], [1, 3]]);
}

#[test]
fn a_sign_over_white_text_has_the_sign_s_place() {
    needs_source!();
    assert_map(&tokens_over(" \n", "ExpressionList", &[("Comma", 0, 2)]), ",\n", &[[1, 1]]);
    assert_map(&tokens_over("\u{3000}", "QueryList", &[("Semicolon", 0, 3)]), ";\n", &[[1, 1]]);
}

#[test]
fn a_token_that_loses_all_its_bytes_gets_0_and_0() {
    needs_source!();
    let spans = [("Number", 0, 1), ("Number", 1, 3), ("Number", 3, 6), ("Number", 0, 0), ("Comment", 1, 2)];
    assert_map(&tokens_over("7 \n\u{3000}", "QualifiedName", &spans[..1]), "7\n", &[[1, 1]]);
    let lost = [[1, 1], [0, 0], [0, 0], [0, 0], [0, 0]];
    assert_map(&tokens_over("7 \n\u{3000}", "QualifiedName", &spans), "7\n", &lost);
}

/// The newline that `finish` adds stands where the lost token's first byte stood, and belongs to nobody.
#[test]
fn the_newline_at_the_end_belongs_to_no_token() {
    needs_source!();
    let call = tokens_over("7\n", "QualifiedName", &[("Number", 0, 1), ("Number", 1, 2)]);
    assert_map(&call, "7\n", &[[1, 1], [0, 0]]);
}

#[test]
fn white_text_before_other_text_is_placed() {
    needs_source!();
    let spans = [("Number", 1, 3), ("Number", 0, 1), ("Number", 1, 3)];
    assert_map(&tokens_over("7 \n", "QualifiedName", &spans), " \n7\n", &[[1, 1], [2, 1], [0, 0]]);
}

#[test]
fn a_token_that_keeps_its_first_byte_is_placed() {
    needs_source!();
    assert_map(&tokens_over(" 7 \n", "ColumnReference", &[("Number", 0, 4)]), " 7\n", &[[1, 1]]);
}

#[test]
fn a_layout_of_nothing_places_nothing() {
    needs_source!();
    assert_map(&tokens_over(" ", "File", &[("Number", 0, 1), ("Whitespace", 0, 1)]), "", &[[0, 0], [0, 0]]);
}

#[test]
fn an_indent_or_a_blank_before_a_token_is_not_its_first_byte() {
    needs_source!();
    let call = call(|b| {
        b.node("SubqueryExpression", |b| {
            b.token("OpeningRoundBracket", "(");
            b.token("Number", "1");
            b.token("Comment", "/**/");
        });
    });
    assert_map(&call, "(\n    1 /**/\n", &[[1, 1], [2, 5], [2, 7]]);
    let at_16 = Case { width: 16, ..call };
    assert_map(&at_16, "(\n                1 /**/\n", &[[1, 1], [2, 17], [2, 19]]);
}

// Refusals

#[test]
fn a_short_map_is_17_with_the_numbers_needed() {
    needs_source!();
    let call = call(sheet_b);
    for numbers in [0, 1, 17] {
        assert_refused(lent(&call, 27, numbers), 17, 18);
    }
    assert_eq!(answer(&lent(&call, 27, 18)).answer, Answer { number: 0, second: 27 });
}

#[test]
fn a_short_output_space_comes_before_a_short_map() {
    needs_source!();
    let call = call(sheet_b);
    assert_refused(lent(&call, 26, 0), 13, 27);
    assert_refused(lent(&call, 26, 17), 13, 27);
    assert_refused(lent(&call, 26, 18), 13, 27);
}

#[test]
fn a_short_map_is_17_even_where_the_layout_needs_no_byte() {
    needs_source!();
    let call = tokens_over(" ", "File", &[("Whitespace", 0, 1)]);
    assert_refused(lent(&call, 0, 0), 17, 2);
    assert_refused(lent(&call, 0, 1), 17, 2);
    let mapped = answer(&lent(&call, 0, 2));
    assert_eq!((mapped.answer, mapped.map), (Answer { number: 0, second: 0 }, vec![0, 0]));
}

/// The numbers needed are those of all tokens, written or not.
#[test]
fn tokens_below_a_copied_node_need_their_numbers() {
    needs_source!();
    let call = call(|b| b.node("Error", |b| b.token("Number", "1")));
    assert_refused(lent(&call, 2, 1), 17, 2);
    assert_map(&call, "1\n", &[[0, 0]]);
}

#[test]
fn no_tokens_need_no_map() {
    needs_source!();
    assert_map(&plain(b"", nested_files(1)), "", &[]);
    assert_eq!(answer(&lent(&plain(b"", nested_files(64)), 0, 0)).answer, Answer { number: 0, second: 0 });
    let copied = call(|b| b.node("Error", |_| {}));
    assert_map(&copied, "", &[]);
}

#[test]
fn every_other_refusal_comes_first_and_leaves_both_spaces() {
    needs_source!();
    let good = tokens_over("a", "File", &[("Number", 0, 1)]);
    let cut = |length: usize| good.tape[..length].to_vec();
    let opened = |kind: u16| {
        let mut tape = Vec::new();
        push_open(&mut tape, kind, 0, 0);
        tape
    };
    let bare_word = tokens_over("é", "File", &[("BareWord", 0, 2)]);
    let inside = tokens_over("é", "File", &[("Number", 0, 1)]);
    for (call, number, place) in [
        (Case { width: 17, case: 2, ..good.clone() }, 1, 0),
        (Case { case: 2, ..good.clone() }, 2, 0),
        (Case { text: vec![b' '; 262_145], ..good.clone() }, 3, 0),
        (Case { text: vec![b'a', 0x80], ..good.clone() }, 4, 1),
        (Case { tape: vec![3; 262_145], ..good.clone() }, 5, 0),
        (Case { tape: vec![4], ..good.clone() }, 6, 0),
        (Case { tape: cut(21), ..good.clone() }, 7, 11),
        (Case { tape: opened(kinds::COUNT), ..good.clone() }, 8, 0),
        (Case { tape: opened(kinds::number("SetStatement")), ..good.clone() }, 9, 0),
        (Case { text: Vec::new(), ..good.clone() }, 10, 11),
        (plain(b"", nested_files(65)), 11, 704),
        (Case { tape: cut(22), ..good.clone() }, 12, 22),
        (inside, 15, 11),
        (bare_word, 16, 11),
    ] {
        assert_refused(lent(&call, 0, 0), number, place);
        assert_refused(lent(&call, 9, 9), number, place);
    }
}
