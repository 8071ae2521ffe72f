//! The tree that the routines walk, with the source's names: its children note which of them is at hand.

use crate::lexer::token::Token;
use crate::parser::syntax_kind::SyntaxKind;
use std::cell::Cell;
use std::rc::Rc;

/// The number of the token that a walk is at; none where it is at a node, and once the token is written.
pub type AtHand = Rc<Cell<Option<usize>>>;

pub struct SyntaxTree {
    pub kind: SyntaxKind,
    pub children: Children,
    pub start: u32,
    pub end: u32,
}

pub enum SyntaxChild {
    Token(Token),
    Tree(SyntaxTree),
}

/// A child, and its number in the tape's order if it is a token.
pub struct Numbered {
    pub number: Option<usize>,
    pub child: SyntaxChild,
}

pub struct Children {
    pub listed: Vec<Numbered>,
    pub at_hand: AtHand,
}

impl Children {
    /// For a look at the children that writes nothing.
    pub fn iter(&self) -> impl Iterator<Item = &SyntaxChild> {
        self.listed.iter().map(|numbered| &numbered.child)
    }
}

/// The walk of a routine: it notes each child as it hands it out, and none when it ends.
pub struct Walk<'t> {
    rest: std::slice::Iter<'t, Numbered>,
    at_hand: &'t AtHand,
}

impl<'t> Iterator for Walk<'t> {
    type Item = &'t SyntaxChild;

    fn next(&mut self) -> Option<&'t SyntaxChild> {
        let next = self.rest.next();
        self.at_hand.set(next.and_then(|numbered| numbered.number));
        next.map(|numbered| &numbered.child)
    }
}

impl<'t> IntoIterator for &'t Children {
    type Item = &'t SyntaxChild;
    type IntoIter = Walk<'t>;

    fn into_iter(self) -> Walk<'t> {
        Walk { rest: self.listed.iter(), at_hand: &self.at_hand }
    }
}
