//! Facts of the source that document 01 states: kinds, keywords, and what students would write instead.

mod common;

use common::{call, layout, one};
use oracle::answers::{formatted, Case};
use oracle::cases::{self, Class};
use oracle::edit::{put_kind, put_span};
use oracle::kinds::{self, BARE_WORD, COUNT, NAMES, NOT_CARRIED};
use oracle::source::{is_keyword, is_value_keyword, keywords, own_name_and_number};
use oracle::tape::{command_places, Child, Node, Token};
use oracle::text::is_white_space;
use oracle::{arms, source};
use std::collections::HashSet;
use std::panic::catch_unwind;

// Kinds

#[test]
fn there_are_258_kinds_numbered_by_their_place() {
    needs_source!();
    assert_eq!(NAMES.len(), usize::from(COUNT));
    for kind in 0..COUNT {
        assert_eq!(own_name_and_number(kind), (kinds::name(kind).to_string(), kind));
    }
}

#[test]
fn the_first_kinds_have_the_numbers_of_document_01() {
    needs_source!();
    let numbers = ["Error", "File", "QueryList", "SelectStatement"].map(kinds::number);
    assert_eq!(numbers, [0, 1, 2, 3]);
}

#[test]
fn bare_word_has_the_number_of_its_name() {
    needs_source!();
    assert_eq!(kinds::number("BareWord"), BARE_WORD);
}

#[test]
fn the_13_kinds_not_carried_have_the_numbers_of_their_names() {
    needs_source!();
    for (name, number) in NOT_CARRIED {
        assert_eq!(kinds::number(name), number, "{name}");
    }
}

#[test]
fn exactly_the_kinds_not_carried_go_to_routines_that_are_left_out() {
    needs_source!();
    let left_out = [
        "format_insert_statement",
        "format_values_clause",
        "format_create_statement",
        "format_column_def_list",
        "format_engine_clause",
        "format_alter_statement",
        "format_set_statement",
        "format_explain_statement",
    ];
    for kind in 0..COUNT {
        assert_eq!(left_out.contains(&kinds::routine(kind)), !kinds::is_carried(kind), "{}", kinds::name(kind));
    }
}

// Keywords

#[test]
fn there_are_217_keywords_and_none_twice() {
    needs_source!();
    assert_eq!(keywords().len(), 217);
    assert_eq!(keywords().iter().collect::<HashSet<_>>().len(), 217);
}

#[test]
fn every_keyword_is_2_to_12_capitals() {
    needs_source!();
    for word in keywords() {
        assert!((2..=12).contains(&word.len()), "{word}");
        assert!(word.bytes().all(|byte| byte.is_ascii_uppercase()), "{word}");
    }
    let lengths: Vec<usize> = keywords().iter().map(|word| word.len()).collect();
    assert_eq!((lengths.iter().min(), lengths.iter().max()), (Some(&2), Some(&12)));
}

#[test]
fn words_are_keywords_in_any_letter_case() {
    needs_source!();
    for word in keywords() {
        assert!(is_keyword(&word.to_lowercase()), "{word}");
        assert!(!is_keyword(&format!("{word}_")), "{word}");
        assert_eq!(is_value_keyword(&word.to_lowercase()), ["TRUE", "FALSE", "NULL"].contains(word), "{word}");
    }
}

// What students would write instead

/// A File with a comment, white space in these tokens, and a statement.
fn statement_after(whites: &[&str]) -> String {
    layout(|b| {
        b.node("File", |b| {
            b.token("Comment", "/*c*/");
            whites.iter().for_each(|white| b.token("Whitespace", white));
            b.node("ColumnReference", |b| b.token("BareWord", "a"));
        })
    })
}

#[test]
fn two_whitespace_tokens_of_one_newline_each_are_no_blank_line() {
    needs_source!();
    assert_eq!(statement_after(&["\n\n"]), "/*c*/\na\n");
    assert_eq!(statement_after(&["\n", "\n"]), "/*c*/a\n");
}

/// A File with a word, white space and a comment.
fn comment_after(white: &str) -> String {
    layout(|b| {
        b.node("File", |b| {
            b.token("BareWord", "a");
            b.token("Whitespace", white);
            b.token("Comment", "/*c*/");
        })
    })
}

#[test]
fn no_blank_line_goes_before_a_comment_under_file() {
    needs_source!();
    assert_eq!(comment_after("\n\n"), "a\n/*c*/\n");
    assert_eq!(comment_after("\n\n\n"), comment_after("\n"));
}

#[test]
fn null_under_binary_expression_changes_its_case() {
    needs_source!();
    assert_eq!(one("BinaryExpression", "BareWord", "null"), "NULL\n");
    assert_eq!(one("ColumnReference", "BareWord", "null"), "null\n");
    let lower = Case { case: 0, ..call(|b| b.node("BinaryExpression", |b| b.token("BareWord", "NULL"))) };
    assert_eq!(formatted(&lower).unwrap(), "null\n");
}

#[test]
fn unclosed_indents_carry_on_after_the_node() {
    needs_source!();
    let written = layout(|b| {
        b.node("File", |b| {
            b.node("SubqueryExpression", |b| b.token("OpeningRoundBracket", "("));
            b.node("CaseExpression", |b| b.token("BareWord", "case"));
            b.node("ColumnReference", |b| b.token("BareWord", "a"));
        })
    });
    assert_eq!(written, "(\n\n\n    CASE\n\n        a\n");
}

#[test]
fn punctuation_is_written_as_a_fixed_sign_whatever_its_span_holds() {
    needs_source!();
    for (node, token, sign) in [
        ("File", "Semicolon", ";"),
        ("QueryList", "Semicolon", ";"),
        ("GroupByClause", "Comma", ","),
        ("OrderByClause", "Comma", ","),
        ("ColumnList", "Comma", ","),
        ("ExpressionList", "Comma", ","),
        ("UnaryExpression", "Minus", "-"),
        ("FunctionCall", "OpeningRoundBracket", "("),
        ("FunctionCall", "ClosingRoundBracket", ")"),
        ("SubqueryExpression", "OpeningRoundBracket", "("),
        ("TupleExpression", "Comma", ","),
        ("ArrayExpression", "OpeningSquareBracket", "["),
        ("ArrayExpression", "ClosingSquareBracket", "]"),
        ("MapExpression", "OpeningCurlyBrace", "{"),
        ("MapExpression", "ClosingCurlyBrace", "}"),
        ("MapExpression", "Colon", ":"),
        ("DataType", "Comma", ","),
        ("AlterCommandList", "Comma", ","),
    ] {
        assert_eq!(one(node, token, "xyz"), format!("{sign}\n"), "{node} {token}");
    }
}

#[test]
fn punctuation_is_copied_where_the_routine_does_not_name_it() {
    needs_source!();
    assert_eq!(one("ColumnReference", "Comma", "xyz"), "xyz\n");
    assert_eq!(one("SelectStatement", "OpeningRoundBracket", "xyz"), "xyz\n");
    assert_eq!(one("BinaryExpression", "Minus", "xyz"), "xyz\n");
}

// Routines that are alike

/// Checks that two root kinds lay all generated children out alike.
fn assert_alike(first: &str, second: &str) {
    for index in 0..1_000 {
        let mut case = cases::call(5, Class::Wild, index);
        let [one, other] = [first, second].map(|root| {
            put_kind(&mut case.tape, 0, kinds::number(root));
            formatted(&case)
        });
        assert_eq!(one, other, "wild {index} under {first} and {second}");
    }
}

#[test]
fn limit_by_and_join_are_laid_out_alike() {
    needs_source!();
    assert_alike("LimitByClause", "JoinClause");
}

#[test]
fn format_simple_clause_does_what_format_inline_does() {
    needs_source!();
    assert_alike("FromClause", "ColumnReference");
}

// Nodes copied as typed

/// A word in a bracket's indent, after an Error node of this span.
fn word_after_error(start: u32, end: u32) -> String {
    let mut case = call(|b| {
        b.node("SubqueryExpression", |b| {
            b.token("OpeningRoundBracket", "(");
            b.node("QueryList", |b| {
                b.node("Error", |_| {});
                b.token("Number", "1");
            })
        })
    });
    let error = command_places(&case.tape)[3];
    put_span(&mut case.tape, error, (start, end));
    formatted(&case).unwrap()
}

#[test]
fn a_copied_node_with_start_above_end_changes_no_layout_state() {
    needs_source!();
    assert_eq!(word_after_error(1, 0), "(\n    1\n");
    assert_eq!(word_after_error(u32::MAX, 9), "(\n    1\n");
}

#[test]
fn an_empty_copied_node_takes_the_next_indent_away() {
    needs_source!();
    assert_eq!(word_after_error(1, 1), "(\n1\n");
}

/// A node of this kind that holds a keyword, an Error node of two blanks and a number.
fn with_error_child(kind: &str) -> String {
    layout(|b| {
        b.node(kind, |b| {
            b.token("BareWord", "as");
            b.node("Error", |b| b.token("Whitespace", "  "));
            b.token("Number", "1");
        })
    })
}

#[test]
fn a_node_with_an_error_child_is_copied_save_query_list() {
    needs_source!();
    for kind in ["File", "SelectStatement", "ColumnReference", "Error"] {
        assert_eq!(with_error_child(kind), "as  1\n", "{kind}");
    }
    assert_eq!(with_error_child("QueryList"), "AS  1\n");
}

#[test]
fn an_error_grandchild_does_not_copy_the_node() {
    needs_source!();
    let written = layout(|b| {
        b.node("BinaryExpression", |b| {
            b.token("Equals", "=");
            b.node("Identifier", |b| b.node("Error", |b| b.token("Number", "1")));
            b.token("Equals", "=");
        })
    });
    assert_eq!(written, "=1 =\n");
}

#[test]
fn a_token_of_kind_error_does_not_copy_its_node() {
    needs_source!();
    assert_eq!(one("SelectClause", "Error", "a  "), "a\n");
    let written = layout(|b| {
        b.node("BinaryExpression", |b| {
            b.token("Error", "a");
            b.token("Equals", "=");
            b.token("Number", "1");
        })
    });
    assert_eq!(written, "a = 1\n");
}

// White space, comments and empty tokens

#[test]
fn trimming_drops_white_space_alone() {
    needs_source!();
    for character in (char::MIN..='\u{FFFF}').chain("😀\u{10000}\u{E0020}\u{10FFFF}".chars()) {
        let text = format!("a{character}");
        let written = one("Identifier", "Number", &text);
        let expected = if is_white_space(character) { "a\n".to_string() } else { format!("{text}\n") };
        assert_eq!(written, expected, "U+{:04X}", u32::from(character));
    }
}

// Letters beyond ASCII

/// What the source writes for a root with one token over the text, whatever the call answers.
fn written_by_source(root: &str, token: &str, text: &str, upper: bool) -> String {
    let end = text.len() as u32;
    let token = Token { kind: kinds::number(token), start: 0, end };
    let root = Node { kind: kinds::number(root), start: 0, end, children: vec![Child::Token(token)] };
    source::format(&root, 4, upper, text)
}

/// So what 16 lets pass is written in the case of ASCII letters alone.
#[test]
fn no_routine_changes_the_case_of_other_tokens_than_bare_words() {
    needs_source!();
    let text = "sSßſéÉ";
    for root in arms::representatives() {
        for token in (0..COUNT).filter(|kind| *kind != BARE_WORD) {
            let (root, token) = (kinds::name(root), kinds::name(token));
            let written = written_by_source(root, token, text, true);
            let signs = written.trim().is_ascii();
            assert!(signs || written.trim() == text, "{token} under {root} is written as {written}");
        }
    }
}

#[test]
fn the_source_changes_the_case_of_every_letter_of_a_bare_word() {
    needs_source!();
    for (root, text, upper, expected) in [
        ("ColumnReference", "ſelect", true, "SELECT\n"),
        ("ColumnReference", "ſelect", false, "ſelect\n"),
        ("ColumnReference", "é", true, "é\n"),
        ("BinaryExpression", "ß", true, "SS\n"),
        ("BinaryExpression", "é", true, "É\n"),
        ("BinaryExpression", "\u{212A}", false, "k\n"),
        ("CaseExpression", "elſe", true, "\nELSE\n"),
    ] {
        assert_eq!(written_by_source(root, "BareWord", text, upper), expected, "{text} under {root}");
    }
}

#[test]
fn the_source_panics_at_a_span_that_it_reads_and_that_cuts_a_character() {
    needs_source!();
    let panics = |root: &str, start: u32, tokens: &[(u32, u32)]| {
        let kind = kinds::number("Whitespace");
        let children =
            tokens.iter().map(|(start, end)| Child::Token(Token { kind, start: *start, end: *end })).collect();
        let root = Node { kind: kinds::number(root), start, end: 2, children };
        catch_unwind(|| source::format(&root, 4, true, "é")).is_err()
    };
    assert!(panics("File", 0, &[(0, 1)]));
    assert!(panics("File", 0, &[(1, 1)]));
    assert!(panics("Error", 1, &[]));
    assert!(!panics("File", 1, &[]), "it does not look at the span of a node that it lays out");
    assert!(!panics("Error", 0, &[(0, 1)]), "nor at a token below a node copied as typed");
}

#[test]
fn an_empty_token_writes_the_wanted_blank() {
    needs_source!();
    let written = layout(|b| {
        b.node("FromClause", |b| {
            b.token("Number", "1");
            b.token("Number", "");
            b.token("Number", "2");
        })
    });
    assert_eq!(written, "1  2\n");
}

#[test]
fn leading_newlines_stay() {
    needs_source!();
    let written = layout(|b| b.node("WithClause", |b| b.node("ColumnReference", |b| b.token("Number", "1"))));
    assert_eq!(written, "\n    1\n");
}

#[test]
fn a_comment_that_holds_its_newline_gives_an_empty_line() {
    needs_source!();
    let written = layout(|b| {
        b.node("FromClause", |b| {
            b.token("Comment", "--x\n");
            b.token("Number", "1");
        })
    });
    assert_eq!(written, "--x\n\n1\n");
}

#[test]
fn routines_without_a_comment_arm_write_a_comment_as_a_plain_token() {
    needs_source!();
    for kind in ["TupleExpression", "ArrayExpression", "MapExpression", "AlterCommandList", "UnionClause"] {
        let written = layout(|b| {
            b.node(kind, |b| {
                b.token("Comment", "--x");
                b.token("Number", "1");
            })
        });
        assert_eq!(written, "--x1\n", "{kind}");
    }
}

#[test]
fn a_wanted_blank_at_line_start_is_not_written() {
    needs_source!();
    let written = layout(|b| {
        b.node("BinaryExpression", |b| {
            b.token("Equals", "=");
            b.token("Comment", "--x");
            b.token("Equals", "=");
        })
    });
    assert_eq!(written, "= --x\n=\n");
}

#[test]
fn dedent_at_level_0_stays_0() {
    needs_source!();
    let written = layout(|b| {
        b.node("SubqueryExpression", |b| {
            b.token("ClosingRoundBracket", ")");
            b.token("OpeningRoundBracket", "(");
            b.token("Number", "1");
        })
    });
    assert_eq!(written, "\n)(\n    1\n");
}
