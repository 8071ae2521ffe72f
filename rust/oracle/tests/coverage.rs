//! The generated trees reach every carried node kind and every arm of the routines on the carried side.

mod common;

use oracle::answers::accepted_tree;
use oracle::arms;
use oracle::cases::{call, Class};
use oracle::coverage::{Coverage, NODE_KINDS, WORDS};
use oracle::kinds;
use oracle::source::keywords;
use std::collections::BTreeSet;

const SEED: u64 = 7;
const CASES: u64 = 6_000;

fn coverage_of(class: Class) -> Coverage {
    let mut coverage = Coverage::default();
    for index in 0..CASES {
        let case = call(SEED, class, index);
        let root = accepted_tree(&case).expect("the class makes accepted calls");
        coverage.add(&root, &case.text);
    }
    coverage
}

#[test]
fn every_carried_node_kind_is_laid_out() {
    needs_source!();
    let coverage = coverage_of(Class::Wild);
    let error = kinds::number("Error");
    for kind in (0..kinds::COUNT).filter(|kind| kinds::is_carried(*kind) && *kind != error) {
        let count = coverage.laid_out.get(&kind).copied().unwrap_or(0);
        assert!(count >= 20, "{} was laid out {count} times", kinds::name(kind));
    }
    assert!(coverage.copied > 500, "{} nodes were copied", coverage.copied);
}

#[test]
fn every_routine_meets_every_sort_of_child() {
    needs_source!();
    let coverage = coverage_of(Class::Wild);
    let error = kinds::number("Error");
    let carried = (0..kinds::COUNT).filter(|kind| kinds::is_carried(*kind) && *kind != error);
    let routines: BTreeSet<&str> = carried.map(kinds::routine).collect();
    assert_eq!(routines.len(), 29);
    let words: Vec<String> = WORDS.iter().map(|word| format!("BareWord {word}")).collect();
    let others = ["other token", "other node"];
    for routine in routines {
        for sort in
            kinds::TOKENS.iter().chain(&NODE_KINDS).chain(&others).copied().chain(words.iter().map(String::as_str))
        {
            assert!(coverage.children.contains_key(&(routine, sort.to_string())), "{routine} never met {sort}");
        }
    }
}

/// The calls that scripts/definition_runs.py picks from.
#[test]
fn small_calls_take_every_arm() {
    needs_source!();
    let mut left = arms::every();
    for index in 0..100_000 {
        arms::taken(&call(1, Class::Small, index)).iter().for_each(|arm| _ = left.remove(arm));
    }
    assert!(left.is_empty(), "{left:?}");
}

#[test]
fn only_named_arms_are_taken() {
    needs_source!();
    let every = arms::every();
    for class in [Class::Parser, Class::Wild, Class::Small, Class::Utf8, Class::Utf8Small] {
        for index in 0..500 {
            let taken = arms::taken(&call(SEED, class, index));
            assert!(taken.is_subset(&every), "{class:?} {index}: {:?}", taken.difference(&every));
        }
    }
}

#[test]
fn every_keyword_reaches_emit_token() {
    needs_source!();
    let coverage = coverage_of(Class::Wild);
    for word in keywords() {
        assert!(coverage.words.contains(word.as_bytes()), "{word}");
    }
}

#[test]
fn parser_trees_use_the_routines_of_queries() {
    needs_source!();
    let coverage = coverage_of(Class::Parser);
    let met: BTreeSet<&str> = coverage.laid_out.keys().map(|kind| kinds::routine(*kind)).collect();
    for routine in [
        "format_file",
        "format_query_list",
        "format_select_statement",
        "format_select_clause",
        "format_simple_clause",
        "format_group_by_clause",
        "format_order_by_clause",
        "format_limit_by_clause",
        "format_settings_clause",
        "format_with_clause",
        "format_join_clause",
        "format_comma_list",
        "format_inline_comma_list",
        "format_binary_expression",
        "format_unary_expression",
        "format_function_call",
        "format_case_expression",
        "format_when_clause",
        "format_subquery",
        "format_paren_list",
        "format_bracket_list",
        "format_brace_list",
        "format_data_type",
        "format_inline",
        "format_inline_no_spaces",
        "format_union_clause",
        "format_passthrough",
    ] {
        assert!(met.contains(routine), "{routine} was not met");
    }
}
