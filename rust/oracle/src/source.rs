//! Calls of the compiled source: its layout of a tree, where its tokens begin in it, its word tests and its keyword table.

use crate::tape::Node;

/// Whether the source was at hand when this crate was built.
pub const AT_HAND: bool = cfg!(has_source);

/// What to do where it was not.
pub const HINT: &str = "the source is not at hand: set CLICKHOUSE_ANALYZER_SRC to the folder that holds src/";

/// The source's `format` of a tree.
pub fn format(root: &Node, width: usize, upper: bool, text: &str) -> String {
    format_tree(&tree(root), width, upper, text)
}

#[cfg(has_source)]
mod present {
    use crate::formatter::{format, FormatConfig};
    use crate::formatter_opened::format_node;
    use crate::kinds::{RECORDED_VALUES, VALUES};
    use crate::lexer::token::Token;
    use crate::parser::syntax_tree::{SyntaxChild, SyntaxTree};
    use crate::tape::{Child, Node};
    use recorder::tree::{Numbered, SyntaxTree as RecordedTree};
    use recorder::Recorder;

    /// The source's own tree.
    pub type Tree = SyntaxTree;

    /// A child in it.
    pub type TreeChild = SyntaxChild;

    /// A node as the source's own tree, spans as in the tape.
    pub fn tree(node: &Node) -> Tree {
        let children = node.children.iter().map(child).collect();
        SyntaxTree { kind: VALUES[usize::from(node.kind)], children, start: node.start, end: node.end }
    }

    fn child(child: &Child) -> SyntaxChild {
        match child {
            Child::Token(t) => SyntaxChild::Token(Token::new(VALUES[usize::from(t.kind)], t.start, t.end)),
            Child::Node(node) => SyntaxChild::Tree(tree(node)),
        }
    }

    /// The source's `format` of its own tree.
    pub fn format_tree(tree: &Tree, width: usize, upper: bool, text: &str) -> String {
        format(tree, &FormatConfig { indent_width: width, uppercase_keywords: upper }, text)
    }

    /// What the recorder's walk of the source's routines returns, and for each token the offset at which its bytes begin before trimming,
    /// if it is written.
    pub fn recorded(root: &Node, width: usize, upper: bool, text: &str) -> (String, Vec<Option<usize>>) {
        let mut recorder = Recorder::default();
        let tree = recorded_tree(root, &mut recorder);
        let recorded = recorder.record(&tree, width, upper, text);
        (recorded.output, recorded.starts)
    }

    fn recorded_tree(node: &Node, recorder: &mut Recorder) -> RecordedTree {
        let children = node.children.iter().map(|child| recorded_child(child, recorder)).collect();
        recorder.tree(RECORDED_VALUES[usize::from(node.kind)], node.start, node.end, children)
    }

    fn recorded_child(child: &Child, recorder: &mut Recorder) -> Numbered {
        match child {
            Child::Token(t) => recorder.token(RECORDED_VALUES[usize::from(t.kind)], t.start, t.end),
            Child::Node(node) => Recorder::child(recorded_tree(node, recorder)),
        }
    }

    /// The name and number that the source itself gives the kind of this number.
    pub fn own_name_and_number(kind: u16) -> (String, u16) {
        let value = VALUES[usize::from(kind)];
        (format!("{value:?}"), value as u16)
    }

    /// The source's private `is_keyword`.
    pub fn is_keyword(text: &str) -> bool {
        format_node::opened_is_keyword(text)
    }

    /// The source's private `is_value_keyword`.
    pub fn is_value_keyword(text: &str) -> bool {
        format_node::opened_is_value_keyword(text)
    }

    /// The source's private table `KEYWORDS`.
    pub fn keywords() -> &'static [&'static str] {
        format_node::opened_keywords()
    }
}

#[cfg(has_source)]
pub use present::*;

/// The same names where the source is not at hand: every call ends with the hint.
#[cfg(not(has_source))]
mod absent {
    use super::HINT;
    use crate::tape::{Node, Token};

    /// The shape of the source's tree.
    pub struct Tree {
        pub kind: u16,
        pub children: Vec<TreeChild>,
        pub start: u32,
        pub end: u32,
    }

    pub enum TreeChild {
        Token(Token),
        Tree(Tree),
    }

    pub fn tree(_node: &Node) -> Tree {
        panic!("{HINT}")
    }

    pub fn format_tree(_tree: &Tree, _width: usize, _upper: bool, _text: &str) -> String {
        panic!("{HINT}")
    }

    pub fn recorded(_root: &Node, _width: usize, _upper: bool, _text: &str) -> (String, Vec<Option<usize>>) {
        panic!("{HINT}")
    }

    pub fn own_name_and_number(_kind: u16) -> (String, u16) {
        panic!("{HINT}")
    }

    pub fn is_keyword(_text: &str) -> bool {
        panic!("{HINT}")
    }

    pub fn is_value_keyword(_text: &str) -> bool {
        panic!("{HINT}")
    }

    pub fn keywords() -> &'static [&'static str] {
        panic!("{HINT}")
    }
}

#[cfg(not(has_source))]
pub use absent::*;

/// The variable that has tests skipped where the source is not at hand, if its value is `yes`.
pub const GO_ON: &str = "GO_ON_WITHOUT_THE_SOURCE";

/// Whether a test that needs the source may run. A test that compares nothing does not pass: it fails where the source is not at hand,
/// unless the variable says to go on. Then a line that the test runner does not swallow says that the test is skipped.
pub fn at_hand_for(test: &str) -> bool {
    use std::io::Write;
    if !AT_HAND {
        assert!(std::env::var(GO_ON).is_ok_and(|value| value == "yes"), "{HINT}, or {GO_ON} to yes");
        let _ = std::io::stderr().write_all(format!("skipped {test}: {HINT}\n").as_bytes());
    }
    AT_HAND
}
