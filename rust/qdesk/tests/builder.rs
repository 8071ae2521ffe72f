//! The builder of tapes: each call that it refuses, and that it refuses what the library would, at the same command.

mod common;

use common::{nested_files, open, token, CLOSE, PLAIN};
use qdesk::{needed_length, Command, Error, Kind, Operands, TapeBuilder, TapeError, TapeFault, MOST_BYTES, MOST_OPEN};
use std::ops::Range;

/// A span that runs backwards, and no literal that could be a slip.
const BACKWARDS: Range<u32> = Range { start: 5, end: 3 };

/// A builder whose root is open.
fn opened() -> TapeBuilder {
    let mut tape = TapeBuilder::new();
    tape.open(Kind::File, 0..0).unwrap();
    tape
}

/// A builder whose root is closed.
fn closed() -> TapeBuilder {
    let mut tape = opened();
    tape.close().unwrap();
    tape
}

/// Checks the fault and the error's words.
fn assert_refused<T: std::fmt::Debug>(result: Result<T, TapeError>, fault: TapeFault, words: &str) {
    let error = result.unwrap_err();
    assert_eq!(error.fault(), fault);
    assert_eq!(error.to_string(), words);
}

#[test]
fn token_or_close_before_the_root() {
    let words = "no node is open, and the first command opens the root: token BareWord from 0 to 1 at tape offset 0";
    assert_refused(TapeBuilder::new().token(Kind::BareWord, 0..1), TapeFault::NoNodeOpen, words);
    let words = "no node is open, and the first command opens the root: close at tape offset 0";
    assert_refused(TapeBuilder::new().close(), TapeFault::NoNodeOpen, words);
}

#[test]
fn token_or_close_after_the_root() {
    let words = "the root is closed, and no command may follow: token BareWord from 0 to 1 at tape offset 12";
    assert_refused(closed().token(Kind::BareWord, 0..1), TapeFault::AfterRoot, words);
    let words = "the root is closed, and no command may follow: close at tape offset 12";
    assert_refused(closed().close(), TapeFault::AfterRoot, words);
}

#[test]
fn second_root() {
    let words = "the root is closed, and a tape has no second one: node File from 0 to 0 at tape offset 12";
    assert_refused(closed().open(Kind::File, 0..0), TapeFault::SecondRoot, words);
}

#[test]
fn tape_without_a_root() {
    assert_refused(TapeBuilder::new().finish(), TapeFault::NoRoot, "the tape has no root node at tape offset 0");
}

#[test]
fn nodes_left_open() {
    assert_refused(opened().finish(), TapeFault::StillOpen(1), "1 node is still open at tape offset 11");
    let mut tape = opened();
    tape.open(Kind::SelectStatement, 0..0).unwrap();
    assert_refused(tape.finish(), TapeFault::StillOpen(2), "2 nodes are still open at tape offset 22");
}

#[test]
fn kind_past_the_last() {
    let words = "the kind's number is past the last, 257: node of kind 258 from 0 to 0 at tape offset 0";
    assert_refused(TapeBuilder::new().open(258u16, 0..0), TapeFault::UnknownKind(258), words);
    let words = "the kind's number is past the last, 257: token of kind 258 from 0 to 0 at tape offset 11";
    assert_refused(opened().token(258u16, 0..0), TapeFault::UnknownKind(258), words);
}

#[test]
fn kind_not_carried_as_a_node() {
    let words = "a node of this kind is not carried: node SetStatement from 0 to 0 at tape offset 11";
    assert_refused(opened().open(Kind::SetStatement, 0..0), TapeFault::KindNotCarried(Kind::SetStatement), words);
    assert!(opened().token(Kind::SetStatement, 0..0).is_ok(), "a token may be of any kind");
}

#[test]
fn token_that_runs_backwards() {
    let words = "the token starts after its end: token BareWord from 5 to 3 at tape offset 11";
    assert_refused(opened().token(Kind::BareWord, BACKWARDS), TapeFault::Backwards, words);
    assert!(opened().open(Kind::File, BACKWARDS).is_ok(), "a node may run backwards");
}

#[test]
fn a_65th_open_node() {
    let mut tape = TapeBuilder::new();
    for _ in 0..MOST_OPEN {
        tape.open(Kind::File, 0..0).unwrap();
    }
    let words = "64 nodes are open, and no more may be: node File from 0 to 0 at tape offset 704";
    assert_refused(tape.open(Kind::File, 0..0), TapeFault::TooDeep, words);
    for _ in 0..MOST_OPEN {
        tape.close().unwrap();
    }
    assert_eq!(tape.finish().unwrap(), nested_files(MOST_OPEN));
}

#[test]
fn tape_of_262144_bytes_and_no_more() {
    // Three nodes, each with its close: three bytes besides the commands of eleven.
    let tokens = (MOST_BYTES - 3) / 11 - 3;
    let mut tape = opened();
    tape.open(Kind::File, 0..0).unwrap().open(Kind::File, 0..0).unwrap();
    for _ in 0..tokens {
        tape.token(Kind::BareWord, 0..0).unwrap();
    }
    let words = "the tape would be longer than 262144 bytes";
    let open = format!("{words}: node File from 0 to 0 at tape offset 262141");
    assert_refused(tape.open(Kind::File, 0..0), TapeFault::TooLong, &open);
    let token = format!("{words}: token BareWord from 0 to 0 at tape offset 262141");
    assert_refused(tape.token(Kind::BareWord, 0..0), TapeFault::TooLong, &token);
    tape.close().unwrap().close().unwrap().close().unwrap();
    assert_refused(tape.close(), TapeFault::TooLong, &format!("{words}: close at tape offset 262144"));
    let tape = tape.finish().unwrap();
    assert_eq!(tape.len(), MOST_BYTES);
    assert!(needed_length(b"", &tape, PLAIN).is_ok());
}

#[test]
fn a_refused_call_changes_nothing() {
    let mut tape = opened();
    tape.open(Kind::SetStatement, 0..0).unwrap_err();
    tape.token(Kind::BareWord, BACKWARDS).unwrap_err();
    tape.close().unwrap();
    tape.close().unwrap_err();
    tape.open(Kind::File, 0..0).unwrap_err();
    assert_eq!(tape.finish().unwrap(), nested_files(1));
}

#[test]
fn an_error_has_its_place_and_command() {
    let error = opened().token(Kind::BareWord, BACKWARDS).unwrap_err();
    let command = Command::Token(Operands { kind: Kind::BareWord.into(), start: 5, end: 3 });
    assert_eq!((error.place(), error.command()), (11, Some(command)));
    let error = opened().finish().unwrap_err();
    assert_eq!((error.place(), error.command()), (11, None));
}

/// A tape that is too long has no place in the library's answer either.
#[test]
fn a_tape_that_is_too_long_is_the_librarys_5_at_0() {
    let tape = [common::open(Kind::File, 0, 0), common::token(Kind::BareWord, 0, 0).repeat(23_831)].concat();
    let mut builder = opened();
    let error = (0..23_831).find_map(|_| builder.token(Kind::BareWord, 0..0).err()).expect("too long");
    assert_eq!(Err(Error::from(error)), needed_length(b"", &tape, PLAIN));
}

/// A builder's call and the command that it spells.
#[derive(Clone, Copy)]
enum Call {
    Open(u16, u32, u32),
    Token(u16, u32, u32),
    Close,
}

impl Call {
    fn spelt(self) -> Vec<u8> {
        match self {
            Call::Open(kind, start, end) => open(kind, start, end),
            Call::Token(kind, start, end) => token(kind, start, end),
            Call::Close => CLOSE.to_vec(),
        }
    }

    fn made(self, tape: &mut TapeBuilder) -> Result<(), TapeError> {
        match self {
            Call::Open(kind, start, end) => tape.open(kind, start..end).map(|_| ()),
            Call::Token(kind, start, end) => tape.token(kind, start..end).map(|_| ()),
            Call::Close => tape.close().map(|_| ()),
        }
    }
}

/// Calls with each fault and with two at once, and good ones. All spans end within an empty text.
const CALLS: [Call; 9] = [
    Call::Open(Kind::File as u16, 0, 0),
    Call::Open(Kind::Error as u16, 1, 0),
    Call::Open(Kind::SetStatement as u16, 0, 0),
    Call::Open(258, 0, 0),
    Call::Token(Kind::BareWord as u16, 0, 0),
    Call::Token(Kind::SetStatement as u16, 1, 0),
    Call::Token(258, 0, 0),
    Call::Token(u16::MAX, 1, 0),
    Call::Close,
];

/// The tape of the calls, or the error of the first that the builder refuses.
fn built(calls: &[Call]) -> Result<Vec<u8>, Error> {
    let mut tape = TapeBuilder::new();
    for call in calls {
        call.made(&mut tape)?;
    }
    Ok(tape.finish()?)
}

/// Checks that builder and library accept or refuse the calls alike, and that the builder spells the commands.
fn assert_alike(calls: &[Call]) {
    let spelt: Vec<u8> = calls.iter().flat_map(|call| call.spelt()).collect();
    let library = needed_length(b"", &spelt, PLAIN);
    let built = built(calls);
    assert_eq!(built.as_ref().map(|_| ()), library.as_ref().map(|_| ()), "tape {spelt:?}");
    if let Ok(tape) = built {
        assert_eq!(tape, spelt);
    }
}

/// Checks all rows of at most so many calls that begin with these.
fn assert_all_alike(calls: &mut Vec<Call>, more: usize) {
    assert_alike(calls);
    if more == 0 {
        return;
    }
    for call in CALLS {
        calls.push(call);
        assert_all_alike(calls, more - 1);
        calls.pop();
    }
}

#[test]
fn builder_and_library_refuse_alike_on_all_rows_of_five_calls() {
    assert_all_alike(&mut Vec::new(), 5);
}

#[test]
fn builder_and_library_refuse_alike_below_64_open_nodes() {
    for call in CALLS {
        let mut calls = vec![CALLS[0]; MOST_OPEN];
        calls.push(call);
        assert_alike(&calls);
    }
}
