//! The context that the routines write to, with the source's names. The source's own context does the writing; this one notes where the
//! bytes of the token at hand begin.

use crate::formatter::FormatConfig;
use crate::lexer::token::Token;
use crate::parser::syntax_kind::SyntaxKind;
use crate::recorded::own_context;
use crate::tree::AtHand;

pub struct FormatterContext<'a> {
    pub source: &'a str,
    own: own_context::FormatterContext<'a>,
    tokens: &'a [Token],
    at_hand: AtHand,
    /// For each token the offset at which its bytes begin before trimming, if it is written.
    starts: Vec<Option<usize>>,
}

impl<'a> FormatterContext<'a> {
    pub fn new(config: &'a FormatConfig, source: &'a str, tokens: &'a [Token], at_hand: AtHand) -> Self {
        let own = own_context::FormatterContext::new(config, source);
        FormatterContext { source, own, tokens, at_hand, starts: vec![None; tokens.len()] }
    }

    pub fn write_token(&mut self, text: &str) {
        self.own.write_token(text);
        self.note(text);
    }

    pub fn write_keyword(&mut self, text: &str) {
        // So that its length stays as it is.
        assert!(text.is_ascii(), "a keyword beyond ASCII: {text:?}");
        self.own.write_keyword(text);
        self.note(text);
    }

    /// Notes that the last bytes written are those of the token at hand. Each write has such a token, and each token one write at most.
    fn note(&mut self, text: &str) {
        let number = self.at_hand.take().unwrap_or_else(|| panic!("{text:?} is written for no token"));
        let token = &self.tokens[number];
        let is_own = std::ptr::eq(text, token.text(self.source));
        assert!(is_own || fixed_sign(token.kind) == Some(text), "{text:?} is written for {token:?}");
        self.starts[number] = Some(self.own.output().len() - text.len());
    }

    /// The layout as the source's context ends it, and where the tokens began.
    pub fn finish(self) -> (String, Vec<Option<usize>>) {
        (self.own.finish(), self.starts)
    }

    pub fn write_newline(&mut self) {
        self.own.write_newline();
    }

    pub fn is_at_line_start(&self) -> bool {
        self.own.is_at_line_start()
    }

    pub fn write_space(&mut self) {
        self.own.write_space();
    }

    pub fn note_skipped_whitespace(&mut self, text: &str) {
        self.own.note_skipped_whitespace(text);
    }

    pub fn take_pending_newline(&mut self) -> bool {
        self.own.take_pending_newline()
    }

    pub fn take_pending_blank_line(&mut self) -> bool {
        self.own.take_pending_blank_line()
    }

    pub fn indent(&mut self) {
        self.own.indent();
    }

    pub fn dedent(&mut self) {
        self.own.dedent();
    }

    /// A node copied as typed: no token is at hand.
    pub fn write_raw(&mut self, text: &str) {
        assert_eq!(self.at_hand.get(), None, "a token is copied as typed");
        self.own.write_raw(text);
    }

    // Only the routine of ColumnDefinitionList calls these three, and that kind is not carried.

    pub fn child(&self) -> FormatterContext<'a> {
        panic!("ColumnDefinitionList is not carried")
    }

    pub fn output(&self) -> &str {
        panic!("ColumnDefinitionList is not carried")
    }

    pub fn write_padding(&mut self, _n: usize) {
        panic!("ColumnDefinitionList is not carried")
    }
}

/// The sign that some routines write for a token of this kind, whatever its text is.
fn fixed_sign(kind: SyntaxKind) -> Option<&'static str> {
    Some(match kind {
        SyntaxKind::Comma => ",",
        SyntaxKind::Semicolon => ";",
        SyntaxKind::Colon => ":",
        SyntaxKind::Minus => "-",
        SyntaxKind::OpeningRoundBracket => "(",
        SyntaxKind::ClosingRoundBracket => ")",
        SyntaxKind::OpeningSquareBracket => "[",
        SyntaxKind::ClosingSquareBracket => "]",
        SyntaxKind::OpeningCurlyBrace => "{",
        SyntaxKind::ClosingCurlyBrace => "}",
        _ => return None,
    })
}
