//! The course sheet, A to L, on the source itself.

mod common;

use common::{call, layout, one, plain, sheet_b};
use oracle::answers::{answer, formatted, Answer, Case};
use oracle::kinds;
use oracle::tape::{push_close, push_open};

#[test]
fn a_file_with_no_child_is_empty() {
    needs_source!();
    let case = call(|b| b.node("File", |_| {}));
    assert_eq!(answer(&case).laid_out, Answer { number: 0, second: 0 });
}

#[test]
fn b_select_has_a_line_for_each_column() {
    needs_source!();
    assert_eq!(layout(sheet_b), "SELECT\n    a,\n    b\nFROM t\n");
    assert_eq!(layout(sheet_b).len(), 27);
    assert_eq!(call(sheet_b).text, b"select a,b from t");
}

#[test]
fn b_fits_27_bytes_and_leaves_later_ones_untouched() {
    needs_source!();
    let answered = answer(&Case { space: vec![0xEE; 30], ..call(sheet_b) });
    assert_eq!(answered.laid_out, Answer { number: 0, second: 27 });
    assert_eq!(answered.space, b"SELECT\n    a,\n    b\nFROM t\n\xEE\xEE\xEE");
    assert_eq!(answer(&Case { space: vec![0; 27], ..call(sheet_b) }).laid_out.number, 0);
}

#[test]
fn c_width_0_and_lower_case() {
    needs_source!();
    let case = Case { width: 0, case: 0, ..call(sheet_b) };
    assert_eq!(formatted(&case).unwrap(), "select\na,\nb\nfrom t\n");
}

#[test]
fn d_error_root_with_start_above_end_is_empty() {
    needs_source!();
    let mut tape = Vec::new();
    push_open(&mut tape, kinds::number("Error"), 1, 0);
    push_close(&mut tape);
    assert_eq!(formatted(&plain(b"a", tape)).unwrap(), "");
}

#[test]
fn e_function_name_is_written_as_typed() {
    needs_source!();
    let written = layout(|b| {
        b.node("FunctionCall", |b| {
            b.token("BareWord", "Count");
            b.token("OpeningRoundBracket", "(");
            b.token("Star", "*");
            b.token("ClosingRoundBracket", ")");
        })
    });
    assert_eq!(written, "Count(*)\n");
}

#[test]
fn f_operator_has_blanks_around() {
    needs_source!();
    let written = layout(|b| {
        b.node("BinaryExpression", |b| {
            b.node("ColumnReference", |b| b.token("BareWord", "a"));
            b.token("Equals", "=");
            b.token("Number", "1");
        })
    });
    assert_eq!(written, "a = 1\n");
}

#[test]
fn g_two_minus_signs_have_no_blank_between() {
    needs_source!();
    let written = layout(|b| {
        b.node("UnaryExpression", |b| {
            b.token("Minus", "-");
            b.node("UnaryExpression", |b| {
                b.token("Minus", "-");
                b.token("Number", "1");
            });
        })
    });
    assert_eq!(written, "--1\n");
}

#[test]
fn h_column_named_like_a_keyword_changes_case() {
    needs_source!();
    assert_eq!(one("ColumnReference", "BareWord", "host"), "HOST\n");
}

#[test]
fn h_null_is_written_as_typed() {
    needs_source!();
    assert_eq!(one("ColumnReference", "BareWord", "null"), "null\n");
}

#[test]
fn i_case_indents_its_branches() {
    needs_source!();
    let written = layout(|b| {
        b.node("CaseExpression", |b| {
            b.token("BareWord", "case");
            b.node("WhenClause", |b| {
                b.token("BareWord", "when");
                b.node("ColumnReference", |b| b.token("BareWord", "a"));
                b.token("BareWord", "then");
                b.token("Number", "1");
            });
            b.token("BareWord", "else");
            b.token("Number", "2");
            b.token("BareWord", "end");
        })
    });
    assert_eq!(written, "CASE\n    WHEN a THEN 1\n    ELSE 2\nEND\n");
}

#[test]
fn j_empty_subquery_has_an_empty_line() {
    needs_source!();
    let written = layout(|b| {
        b.node("SubqueryExpression", |b| {
            b.token("OpeningRoundBracket", "(");
            b.token("ClosingRoundBracket", ")");
        })
    });
    assert_eq!(written, "(\n\n)\n");
}

#[test]
fn k_bracket_vanishes_behind_a_comment() {
    needs_source!();
    let written = layout(|b| {
        b.node("TupleExpression", |b| {
            b.token("OpeningRoundBracket", "(");
            b.token("Number", "1");
            b.token("Comment", "--x");
            b.token("ClosingRoundBracket", ")");
        })
    });
    assert_eq!(written, "(1--x)\n");
}

#[test]
fn l_semicolon_under_file_is_written() {
    needs_source!();
    let written = layout(|b| {
        b.node("File", |b| {
            b.node("SelectStatement", |b| b.node("SelectClause", |b| b.token("BareWord", "select")));
            b.token("Semicolon", ";");
        })
    });
    assert_eq!(written, "SELECT ;\n");
}

#[test]
fn l_semicolon_under_select_statement_is_left_out() {
    needs_source!();
    let written = layout(|b| {
        b.node("File", |b| {
            b.node("SelectStatement", |b| {
                b.node("SelectClause", |b| b.token("BareWord", "select"));
                b.token("Semicolon", ";");
            })
        })
    });
    assert_eq!(written, "SELECT\n");
}
