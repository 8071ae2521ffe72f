//! The spans of nodes as their tokens give them: what the readable form leaves out.

use crate::job::Command;

/// Start and end.
pub type Span = (u32, u32);

/// The span that a parser gives a node without a token.
const EMPTY: Span = (u32::MAX, 0);

/// For each command that opens a node, the span from the first byte to the last of the tokens in it. Tokens that run backwards or
/// pass the text do not count.
pub fn worked_out(tape: &[Command], text: &[u8]) -> Vec<Span> {
    let mut spans = vec![EMPTY; tape.len()];
    let mut open = Vec::new();
    for (place, command) in tape.iter().enumerate() {
        match command {
            Command::Open(_) => open.push(place),
            Command::Token(token) if token.text_in(text).is_some() => {
                widen(&open, &mut spans, (token.start, token.end));
            }
            Command::Token(_) => {}
            Command::Close => leave(&mut open, &mut spans),
        }
    }
    // Nodes that the tape leaves open hold tokens too.
    while !open.is_empty() {
        leave(&mut open, &mut spans);
    }
    spans
}

/// Closes the innermost node; the one around it holds its tokens too.
fn leave(open: &mut Vec<usize>, spans: &mut [Span]) {
    if let Some(node) = open.pop() {
        widen(open, spans, spans[node]);
    }
}

/// Takes a part into the span of the innermost node.
fn widen(open: &[usize], spans: &mut [Span], (start, end): Span) {
    if let Some(node) = open.last() {
        let (first, last) = spans[*node];
        spans[*node] = (first.min(start), last.max(end));
    }
}
