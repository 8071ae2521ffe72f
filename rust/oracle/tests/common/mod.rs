//! What the tests share: calls written as nested nodes, and tests that need the source.

#![allow(dead_code)]

use oracle::answers::{answer, formatted, in_no_space, Answer, Case};
use oracle::builder::Builder;
use oracle::tape::{push_close, push_open};

/// Ends a test, with one line that it is skipped, where the source is not at hand.
#[macro_export]
macro_rules! needs_source {
    () => {
        fn here() {}
        let path = std::any::type_name_of_val(&here);
        if !oracle::source::at_hand_for(path.trim_end_matches("::here")) {
            return;
        }
    };
}

/// The kind File, by number, for tests that run without the source.
pub const FILE: u16 = 1;

/// Width 4, upper case and no output space.
pub fn plain(text: &[u8], tape: Vec<u8>) -> Case {
    Case { text: text.to_vec(), tape, width: 4, case: 1, space: Vec::new() }
}

/// The call for what `fill` builds, spans as the words imply.
pub fn call(fill: impl FnOnce(&mut Builder)) -> Case {
    let (text, tape) = Builder::build(fill);
    plain(&text, tape)
}

/// The layout of what `fill` builds, at width 4 in upper case.
pub fn layout(fill: impl FnOnce(&mut Builder)) -> String {
    formatted(&call(fill)).expect("an accepted call")
}

/// A root of one kind that holds one token.
pub fn one(node: &str, token: &str, text: &str) -> String {
    layout(|b| b.node(node, |b| b.token(token, text)))
}

/// Nodes of kind File, one in another.
pub fn nested_files(levels: usize) -> Vec<u8> {
    let mut tape = Vec::new();
    (0..levels).for_each(|_| push_open(&mut tape, FILE, 0, 0));
    (0..levels).for_each(|_| push_close(&mut tape));
    tape
}

/// Checks that the call refuses, in no space too, and that nothing is written.
pub fn assert_refused(case: &Case, number: u64, place: u64) {
    let case = Case { space: vec![0xEE; 40], ..case.clone() };
    let answered = answer(&case);
    assert_eq!(in_no_space(&case), Answer { number, second: place }, "in no space");
    assert_eq!(answered.laid_out, Answer { number, second: place }, "laying out");
    assert_eq!(answered.space, case.space, "a refusal writes no byte");
}

/// The course sheet's B: `select a,b from t`.
pub fn sheet_b(b: &mut Builder) {
    b.node("File", |b| {
        b.node("SelectStatement", |b| {
            b.node("SelectClause", |b| {
                b.token("BareWord", "select");
                b.token("Whitespace", " ");
                b.node("ColumnList", |b| {
                    b.node("ColumnReference", |b| b.token("BareWord", "a"));
                    b.token("Comma", ",");
                    b.node("ColumnReference", |b| b.token("BareWord", "b"));
                });
            });
            b.token("Whitespace", " ");
            b.node("FromClause", |b| {
                b.token("BareWord", "from");
                b.token("Whitespace", " ");
                b.node("TableIdentifier", |b| b.token("BareWord", "t"));
            });
        });
    });
}
