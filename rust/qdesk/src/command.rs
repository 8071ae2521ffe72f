//! The commands of a tape, read from its bytes.

use crate::kind::Kind;
use std::fmt;
use std::ops::Range;

const OPEN: u8 = 1;
const TOKEN: u8 = 2;
const CLOSE: u8 = 3;

/// A command of a tape.
///
/// ```
/// use qdesk::{command_at, needed_length, Case, Kind, Settings, TapeBuilder};
///
/// let mut tape = TapeBuilder::new();
/// tape.open(Kind::ColumnReference, 0..4)?.token(Kind::BareWord, 0..4)?.close()?;
/// let tape = tape.finish()?;
///
/// // The text is shorter than the tree says.
/// let error = needed_length(b"id", &tape, Settings { indent_width: 4, case: Case::UPPER }).unwrap_err();
/// assert_eq!((error.number(), error.place()), (10, 0));
/// assert_eq!(error.command_in(&tape), command_at(&tape, 0));
/// assert_eq!(command_at(&tape, 0).unwrap().to_string(), "node ColumnReference from 0 to 4");
/// assert_eq!(command_at(&tape, 11).unwrap().to_string(), "token BareWord from 0 to 4");
/// # Ok::<(), qdesk::Error>(())
/// ```
#[derive(Clone, Copy, Debug, PartialEq, Eq)]
pub enum Command {
    /// Opens a node.
    Open(Operands),
    /// Is a token.
    Token(Operands),
    /// Closes the innermost open node.
    Close,
}

/// What a command says of its node or token.
#[derive(Clone, Copy, Debug, PartialEq, Eq)]
pub struct Operands {
    /// The kind's number, which may be none that there is.
    pub kind: u16,
    /// Where the span starts.
    pub start: u32,
    /// Where the span ends; this byte is no part of it.
    pub end: u32,
}

impl Operands {
    pub(crate) fn new(kind: u16, span: Range<u32>) -> Operands {
        Operands { kind, start: span.start, end: span.end }
    }

    /// The kind, if there is one of this number.
    pub fn named_kind(self) -> Option<Kind> {
        Kind::ALL.get(usize::from(self.kind)).copied()
    }

    /// The bytes of the span; 0 where it starts after its end.
    pub fn length(self) -> u32 {
        self.end.saturating_sub(self.start)
    }

    fn read(bytes: &[u8]) -> Option<Operands> {
        let (kind, bytes) = bytes.split_first_chunk()?;
        let (start, bytes) = bytes.split_first_chunk()?;
        let end = bytes.first_chunk()?;
        Some(Operands {
            kind: u16::from_le_bytes(*kind),
            start: u32::from_le_bytes(*start),
            end: u32::from_le_bytes(*end),
        })
    }
}

impl Command {
    /// The bytes that the command takes in a tape.
    pub fn length(self) -> usize {
        match self {
            Command::Open(_) | Command::Token(_) => 11,
            Command::Close => 1,
        }
    }

    /// Kind and span; a close has none.
    pub fn operands(self) -> Option<Operands> {
        match self {
            Command::Open(operands) | Command::Token(operands) => Some(operands),
            Command::Close => None,
        }
    }

    /// All numbers stand low byte first.
    pub(crate) fn push(self, tape: &mut Vec<u8>) {
        tape.push(match self {
            Command::Open(_) => OPEN,
            Command::Token(_) => TOKEN,
            Command::Close => CLOSE,
        });
        if let Some(operands) = self.operands() {
            tape.extend(operands.kind.to_le_bytes());
            tape.extend(operands.start.to_le_bytes());
            tape.extend(operands.end.to_le_bytes());
        }
    }
}

/// The command at an offset in a tape; none where there is no whole one.
///
/// What an offset inside a command gives is no command of the tape: take offsets from an [`Error`](crate::Error) or from [`commands`].
pub fn command_at(tape: &[u8], offset: usize) -> Option<Command> {
    let (command, operands) = tape.get(offset..)?.split_first()?;
    match *command {
        OPEN => Operands::read(operands).map(Command::Open),
        TOKEN => Operands::read(operands).map(Command::Token),
        CLOSE => Some(Command::Close),
        _ => None,
    }
}

/// The commands of a tape with their offsets, up to the first that is unknown or cut.
pub fn commands(tape: &[u8]) -> impl Iterator<Item = (usize, Command)> + '_ {
    let mut offset = 0;
    std::iter::from_fn(move || {
        let command = command_at(tape, offset)?;
        let found = (offset, command);
        offset += command.length();
        Some(found)
    })
}

/// The lengths of all nodes and tokens of a tape, added up: what bounds the time of a call on a tape from a stranger, beside the lengths of
/// text and tape ([`layout_to_vec`](crate::layout_to_vec) says how).
pub fn span_bytes(tape: &[u8]) -> u64 {
    commands(tape).filter_map(|(_, command)| command.operands()).map(|operands| u64::from(operands.length())).sum()
}

impl fmt::Display for Command {
    fn fmt(&self, f: &mut fmt::Formatter<'_>) -> fmt::Result {
        match self {
            Command::Open(node) => write!(f, "node {node}"),
            Command::Token(token) => write!(f, "token {token}"),
            Command::Close => write!(f, "close"),
        }
    }
}

impl fmt::Display for Operands {
    fn fmt(&self, f: &mut fmt::Formatter<'_>) -> fmt::Result {
        match self.named_kind() {
            Some(kind) => write!(f, "{kind:?}")?,
            None => write!(f, "of kind {}", self.kind)?,
        }
        write!(f, " from {} to {}", self.start, self.end)
    }
}
