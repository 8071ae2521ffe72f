//! A builder of tapes that refuses a bad call at once.

use crate::command::{Command, Operands};
use crate::error::Refusal;
use crate::kind::Kind;
use std::fmt;
use std::ops::Range;

/// The most bytes of a tape, and of a text.
pub const MOST_BYTES: usize = 262_144;

/// The most nodes open at once.
pub const MOST_OPEN: usize = 64;

/// Spells a syntax tree as a tape, command by command.
///
/// A kind is a [`Kind`] or its number, as a parser's own enum has it. A span is two offsets in the text, from start up to, not including,
/// end. A call that would spell a faulty tape is refused and changes nothing, so that the builder can be used on. It does not know the
/// text: that a span ends past it or lies inside a character, or that a bare word is not ASCII, is left to the library (refusals 10, 15
/// and 16).
///
/// ```
/// use qdesk::{Kind, TapeBuilder, TapeError, TapeFault};
///
/// let mut tape = TapeBuilder::new();
/// tape.open(Kind::ColumnReference, 0..4)?.token(Kind::BareWord, 0..4)?.close()?;
/// assert_eq!(tape.close().unwrap_err().fault(), TapeFault::AfterRoot);
/// assert_eq!(tape.finish()?, [1, 137, 0, 0, 0, 0, 0, 4, 0, 0, 0, 2, 211, 0, 0, 0, 0, 0, 4, 0, 0, 0, 3]);
/// # Ok::<(), TapeError>(())
/// ```
#[derive(Clone, Debug, Default)]
pub struct TapeBuilder {
    tape: Vec<u8>,
    /// How many nodes are open.
    open: usize,
}

impl TapeBuilder {
    /// A builder with no command yet.
    pub fn new() -> TapeBuilder {
        TapeBuilder::default()
    }

    /// Opens a node: the root, or a child of the innermost open node.
    ///
    /// Its start may be above its end, as a parser has it for a node without a token.
    pub fn open(&mut self, kind: impl Into<u16>, span: Range<u32>) -> Result<&mut TapeBuilder, TapeError> {
        self.add(Command::Open(Operands::new(kind.into(), span)))
    }

    /// Adds a token to the innermost open node.
    pub fn token(&mut self, kind: impl Into<u16>, span: Range<u32>) -> Result<&mut TapeBuilder, TapeError> {
        self.add(Command::Token(Operands::new(kind.into(), span)))
    }

    /// Closes the innermost open node.
    pub fn close(&mut self) -> Result<&mut TapeBuilder, TapeError> {
        self.add(Command::Close)
    }

    /// The tape, once its root is closed.
    pub fn finish(self) -> Result<Vec<u8>, TapeError> {
        let place = self.tape.len();
        let fault = match (place, self.open) {
            (0, _) => TapeFault::NoRoot,
            (_, 0) => return Ok(self.tape),
            (_, open) => TapeFault::StillOpen(open),
        };
        Err(TapeError { fault, place, command: None })
    }

    fn add(&mut self, command: Command) -> Result<&mut TapeBuilder, TapeError> {
        let place = self.tape.len();
        self.check(command).map_err(|fault| TapeError { fault, place, command: Some(command) })?;
        match command {
            Command::Open(_) => self.open += 1,
            Command::Token(_) => {}
            Command::Close => self.open -= 1,
        }
        command.push(&mut self.tape);
        Ok(self)
    }

    /// The library's tests that need no text, in its order.
    fn check(&self, command: Command) -> Result<(), TapeFault> {
        if self.tape.len() + command.length() > MOST_BYTES {
            return Err(TapeFault::TooLong);
        }
        match command {
            Command::Open(node) => self.check_node(node),
            Command::Token(token) => self.check_token(token),
            Command::Close => self.check_open(),
        }
    }

    fn check_node(&self, node: Operands) -> Result<(), TapeFault> {
        if self.is_finished() {
            return Err(TapeFault::SecondRoot);
        }
        let kind = node.named_kind().ok_or(TapeFault::UnknownKind(node.kind))?;
        if !kind.is_carried() {
            return Err(TapeFault::KindNotCarried(kind));
        }
        if self.open == MOST_OPEN {
            return Err(TapeFault::TooDeep);
        }
        Ok(())
    }

    fn check_token(&self, token: Operands) -> Result<(), TapeFault> {
        self.check_open()?;
        token.named_kind().ok_or(TapeFault::UnknownKind(token.kind))?;
        if token.start > token.end {
            return Err(TapeFault::Backwards);
        }
        Ok(())
    }

    fn check_open(&self) -> Result<(), TapeFault> {
        if self.is_finished() {
            return Err(TapeFault::AfterRoot);
        }
        if self.open == 0 {
            return Err(TapeFault::NoNodeOpen);
        }
        Ok(())
    }

    /// Whether the root is closed: the first command opens it, and no other is taken before.
    fn is_finished(&self) -> bool {
        self.open == 0 && !self.tape.is_empty()
    }
}

/// A call that the builder refused: why, and which command it would have been. The library refuses the same tapes, and `?` makes its
/// [`Error`](crate::Error) of this one.
///
/// ```
/// use qdesk::{Error, Kind, TapeBuilder};
///
/// let mut tape = TapeBuilder::new();
/// let error = tape.open(Kind::File, 0..9)?.open(Kind::SetStatement, 0..9).unwrap_err();
/// assert_eq!(error.to_string(), "a node of this kind is not carried: node SetStatement from 0 to 9 at tape offset 11");
/// assert_eq!((Error::from(error).number(), Error::from(error).place()), (9, 11));
/// # Ok::<(), Error>(())
/// ```
#[derive(Clone, Copy, Debug, PartialEq, Eq)]
pub struct TapeError {
    fault: TapeFault,
    place: usize,
    command: Option<Command>,
}

impl TapeError {
    /// Why the call was refused.
    pub fn fault(self) -> TapeFault {
        self.fault
    }

    /// The offset in the tape at which the command would stand; for a tape that was finished too soon, its length.
    pub fn place(self) -> usize {
        self.place
    }

    /// The command that was refused; none where [`finish`](TapeBuilder::finish) was.
    pub fn command(self) -> Option<Command> {
        self.command
    }
}

impl fmt::Display for TapeError {
    fn fmt(&self, f: &mut fmt::Formatter<'_>) -> fmt::Result {
        match self.command {
            Some(command) => write!(f, "{}: {command} at tape offset {}", self.fault, self.place),
            None => write!(f, "{} at tape offset {}", self.fault, self.place),
        }
    }
}

impl std::error::Error for TapeError {}

/// Why the builder refused a call; the number of the library's refusal stands with each.
#[derive(Clone, Copy, Debug, PartialEq, Eq)]
#[non_exhaustive]
pub enum TapeFault {
    /// A token or close before the root was opened (12).
    NoNodeOpen,
    /// A token or close after the root was closed (12).
    AfterRoot,
    /// A node opened after the root was closed (12).
    SecondRoot,
    /// A tape finished without a root (12).
    NoRoot,
    /// A tape finished while so many nodes are open (12).
    StillOpen(usize),
    /// A kind's number is past the last kind's (8).
    UnknownKind(u16),
    /// A node of a kind that is not carried (9).
    KindNotCarried(Kind),
    /// A token that starts after its end (10).
    Backwards,
    /// A 65th open node (11).
    TooDeep,
    /// The command would make the tape longer than [`MOST_BYTES`] (5).
    TooLong,
}

impl TapeFault {
    /// The library's refusal of such a tape.
    pub fn refusal(self) -> Refusal {
        match self {
            TapeFault::TooLong => Refusal::TapeTooLong,
            TapeFault::UnknownKind(_) => Refusal::UnknownKind,
            TapeFault::KindNotCarried(_) => Refusal::KindNotCarried,
            TapeFault::Backwards => Refusal::SpanOutside,
            TapeFault::TooDeep => Refusal::TooDeep,
            TapeFault::NoNodeOpen
            | TapeFault::AfterRoot
            | TapeFault::SecondRoot
            | TapeFault::NoRoot
            | TapeFault::StillOpen(_) => Refusal::NotOneRoot,
        }
    }
}

impl fmt::Display for TapeFault {
    fn fmt(&self, f: &mut fmt::Formatter<'_>) -> fmt::Result {
        match self {
            TapeFault::NoNodeOpen => write!(f, "no node is open, and the first command opens the root"),
            TapeFault::AfterRoot => write!(f, "the root is closed, and no command may follow"),
            TapeFault::SecondRoot => write!(f, "the root is closed, and a tape has no second one"),
            TapeFault::NoRoot => write!(f, "the tape has no root node"),
            TapeFault::StillOpen(1) => write!(f, "1 node is still open"),
            TapeFault::StillOpen(open) => write!(f, "{open} nodes are still open"),
            TapeFault::UnknownKind(_) => write!(f, "the kind's number is past the last, {}", Kind::ALL.len() - 1),
            TapeFault::KindNotCarried(_) => write!(f, "a node of this kind is not carried"),
            TapeFault::Backwards => write!(f, "the token starts after its end"),
            TapeFault::TooDeep => write!(f, "{MOST_OPEN} nodes are open, and no more may be"),
            TapeFault::TooLong => write!(f, "the tape would be longer than {MOST_BYTES} bytes"),
        }
    }
}
