//! The reader of tapes.

mod common;

use common::{open, token, CLOSE, PLAIN};
use qdesk::{command_at, commands, needed_length, span_bytes, Command, Kind, Operands};

/// A node over 0 to 6 with a token over 2 to 5.
fn tape() -> Vec<u8> {
    [open(Kind::ColumnReference, 0, 6), token(Kind::BareWord, 2, 5), CLOSE.to_vec()].concat()
}

fn operands(kind: impl Into<u16>, start: u32, end: u32) -> Operands {
    Operands { kind: kind.into(), start, end }
}

#[test]
fn commands_with_their_offsets() {
    let node = Command::Open(operands(Kind::ColumnReference, 0, 6));
    let word = Command::Token(operands(Kind::BareWord, 2, 5));
    let found: Vec<(usize, Command)> = commands(&tape()).collect();
    assert_eq!(found, [(0, node), (11, word), (22, Command::Close)]);
    assert!(found.iter().all(|(offset, command)| command_at(&tape(), *offset) == Some(*command)));
}

#[test]
fn reading_ends_at_a_command_that_is_unknown_or_cut() {
    for (rest, whole) in
        [(&[][..], 3), (&[4], 3), (&[0, 3], 3), (&[1], 3), (&[2, 0, 0, 0, 0, 0, 0, 0, 0, 0], 3), (&[3], 4)]
    {
        let tape = [&tape(), rest].concat();
        assert_eq!(commands(&tape).count(), whole, "{rest:?}");
    }
    assert_eq!(command_at(&tape(), 23), None);
    assert_eq!(command_at(&tape(), usize::MAX), None);
}

#[test]
fn what_was_refused_is_shown() {
    let shown = |text: &[u8], tape: &[u8]| {
        let error = needed_length(text, tape, PLAIN).unwrap_err();
        (error.number(), error.place(), error.command_in(tape).map(|command| command.to_string()))
    };
    assert_eq!(shown(b"abc", &tape()), (10, 0, Some("node ColumnReference from 0 to 6".to_string())));
    let backwards = [open(Kind::File, 0, 0), token(Kind::BareWord, 5, 3), CLOSE.to_vec()].concat();
    assert_eq!(shown(b"abc", &backwards), (10, 11, Some("token BareWord from 5 to 3".to_string())));
    assert_eq!(shown(b"", &open(258u16, 0, 0)), (8, 0, Some("node of kind 258 from 0 to 0".to_string())));
    assert_eq!(shown(b"", &CLOSE), (12, 0, Some("close".to_string())));
    assert_eq!(shown(b"", &[9]), (6, 0, None));
    assert_eq!(shown(b"", &[1, 0]), (7, 0, None));
    assert_eq!(shown(b"", &open(Kind::File, 0, 0)), (12, 11, None));
    assert_eq!(shown(b"\xFF", &tape()), (4, 0, None));
}

#[test]
fn spans_add_up() {
    assert_eq!(span_bytes(&[]), 0);
    assert_eq!(span_bytes(&tape()), 9);
    assert_eq!(span_bytes(&token(Kind::BareWord, 5, 3)), 0);
    assert_eq!(span_bytes(&token(Kind::BareWord, 0, u32::MAX).repeat(3)), 3 * u64::from(u32::MAX));
}
