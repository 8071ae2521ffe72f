//! A builder of text and tape at once: each token's text is appended, each node spans its tokens as a parser's does.

use crate::edit::put_span;
use crate::kinds;
use crate::tape::{push_close, push_open, push_token};

#[derive(Default)]
pub struct Builder {
    pub text: Vec<u8>,
    pub tape: Vec<u8>,
    /// The open nodes: their command's offset, and their tokens' first start and last end.
    open: Vec<(usize, u32, u32)>,
}

impl Builder {
    /// Text and tape of what `fill` builds.
    pub fn build(fill: impl FnOnce(&mut Builder)) -> (Vec<u8>, Vec<u8>) {
        let mut builder = Builder::default();
        fill(&mut builder);
        (builder.text, builder.tape)
    }

    /// A node and what `fill` puts in it.
    pub fn node(&mut self, kind: &str, fill: impl FnOnce(&mut Builder)) {
        self.open(kind);
        fill(self);
        self.close();
    }

    pub fn open(&mut self, kind: &str) {
        self.open.push((self.tape.len(), u32::MAX, 0));
        push_open(&mut self.tape, kinds::number(kind), u32::MAX, 0);
    }

    pub fn token(&mut self, kind: &str, text: &str) {
        let start = self.text.len() as u32;
        self.text.extend(text.as_bytes());
        let end = self.text.len() as u32;
        push_token(&mut self.tape, kinds::number(kind), start, end);
        self.widen(start, end);
    }

    /// Closes the innermost node; one without a token keeps the parser's empty span, start above end.
    pub fn close(&mut self) {
        let (place, start, end) = self.open.pop().expect("a node is open");
        put_span(&mut self.tape, place, (start, end));
        push_close(&mut self.tape);
        self.widen(start, end);
    }

    pub fn depth(&self) -> usize {
        self.open.len()
    }

    fn widen(&mut self, start: u32, end: u32) {
        if let Some((_, first, last)) = self.open.last_mut() {
            *first = start.min(*first);
            *last = end.max(*last);
        }
    }
}
