//! A tree in the making, and the layout that is recorded of it.

use crate::context::FormatterContext;
use crate::formatter::FormatConfig;
use crate::lexer::token::Token;
use crate::parser::syntax_kind::SyntaxKind;
use crate::recorded::format_node::format_node;
use crate::tree::{AtHand, Children, Numbered, SyntaxChild, SyntaxTree};

/// What the source returns, and for each token the offset at which its bytes begin before trimming, if it is written.
pub struct Recorded {
    pub output: String,
    pub starts: Vec<Option<usize>>,
}

/// Makes the nodes of one tree. Tokens are numbered in the order in which they are made, which is the tape's.
#[derive(Default)]
pub struct Recorder {
    tokens: Vec<Token>,
    at_hand: AtHand,
}

impl Recorder {
    pub fn token(&mut self, kind: SyntaxKind, start: u32, end: u32) -> Numbered {
        let token = Token::new(kind, start, end);
        self.tokens.push(token.clone());
        Numbered { number: Some(self.tokens.len() - 1), child: SyntaxChild::Token(token) }
    }

    pub fn tree(&self, kind: SyntaxKind, start: u32, end: u32, listed: Vec<Numbered>) -> SyntaxTree {
        SyntaxTree { kind, children: Children { listed, at_hand: self.at_hand.clone() }, start, end }
    }

    pub fn child(tree: SyntaxTree) -> Numbered {
        Numbered { number: None, child: SyntaxChild::Tree(tree) }
    }

    /// Lays out the tree, as the source's `format` does.
    pub fn record(self, root: &SyntaxTree, width: usize, upper: bool, text: &str) -> Recorded {
        let config = FormatConfig { indent_width: width, uppercase_keywords: upper };
        let mut context = FormatterContext::new(&config, text, &self.tokens, self.at_hand.clone());
        format_node(root, &mut context);
        let (output, starts) = context.finish();
        Recorded { output, starts }
    }
}
