//! Why a call was refused, and where.

use crate::command::{command_at, Command};
use crate::ffi::Answer;
use crate::tape::TapeError;
use std::fmt;

/// The refusals, each with its number.
///
/// 1 to 5 are tried in that order. Then the tape is read from its start, and the first faulty command decides; within one, the order is
/// 6, 7, 12, 8, 9, 10, 15, 16, 11. 13 comes last, and 17 of a map call after it. 14 is the desk's program's own. 18 and 19 refuse a book: first
/// its length is tried, then its commands from the start, before any job is answered; the first faulty one decides, and there 18 comes
/// before 19.
#[derive(Clone, Copy, Debug, PartialEq, Eq)]
#[non_exhaustive]
pub enum Refusal {
    /// The indent width is above 16.
    IndentWidth = 1,
    /// The case is above 1.
    CaseByte = 2,
    /// The text is longer than [`MOST_BYTES`](crate::MOST_BYTES).
    TextTooLong = 3,
    /// The text is not well-formed UTF-8. The place is the offset of the first byte that isn't part of a well-formed character.
    NotUtf8 = 4,
    /// The tape is longer than [`MOST_BYTES`](crate::MOST_BYTES).
    TapeTooLong = 5,
    /// A command is not 01, 02 or 03.
    UnknownCommand = 6,
    /// A command is cut by the tape's end.
    CutCommand = 7,
    /// A kind's number is past the last kind's.
    UnknownKind = 8,
    /// A node is of a kind that is not carried.
    KindNotCarried = 9,
    /// A token starts after its end; or a token, or a node that does not start after its end, ends past the text.
    SpanOutside = 10,
    /// A 65th node is opened.
    TooDeep = 11,
    /// A token or close with no node open, or any command after the root's close; or the tape ends with no finished root, and the place
    /// is its length.
    NotOneRoot = 12,
    /// The output space is too short for the layout. In place of a place stands the needed length.
    SpaceTooShort = 13,
    /// A token, or a node that does not start after its end, starts or ends inside a character.
    SpanInsideCharacter = 15,
    /// A token of kind `BareWord` holds a byte above 127.
    WordNotAscii = 16,
    /// The map space is below two numbers per token. In place of a place stands the count of numbers needed.
    MapTooShort = 17,
    /// A command of a book is wrong or cut short; or the book is longer than [`MOST_BOOK`](crate::MOST_BOOK), and the place is 65536.
    BookCommand = 18,
    /// A 257th job.
    TooManyJobs = 19,
}

impl Refusal {
    /// Every refusal in the order of the numbers.
    pub const ALL: &'static [Refusal] = &[
        Refusal::IndentWidth,
        Refusal::CaseByte,
        Refusal::TextTooLong,
        Refusal::NotUtf8,
        Refusal::TapeTooLong,
        Refusal::UnknownCommand,
        Refusal::CutCommand,
        Refusal::UnknownKind,
        Refusal::KindNotCarried,
        Refusal::SpanOutside,
        Refusal::TooDeep,
        Refusal::NotOneRoot,
        Refusal::SpaceTooShort,
        Refusal::SpanInsideCharacter,
        Refusal::WordNotAscii,
        Refusal::MapTooShort,
        Refusal::BookCommand,
        Refusal::TooManyJobs,
    ];

    fn words(self) -> &'static str {
        match self {
            Refusal::IndentWidth => "indent width above 16",
            Refusal::CaseByte => "case above 1",
            Refusal::TextTooLong => "text longer than 262,144 bytes",
            Refusal::NotUtf8 => "text is not well-formed UTF-8",
            Refusal::TapeTooLong => "tape longer than 262,144 bytes",
            Refusal::UnknownCommand => "command is not 01, 02 or 03",
            Refusal::CutCommand => "command cut by the tape's end",
            Refusal::UnknownKind => "kind number past the last kind",
            Refusal::KindNotCarried => "node of a kind that is not carried",
            Refusal::SpanOutside => "token or node ends past the text, or token starts after its end",
            Refusal::TooDeep => "65th node opened",
            Refusal::NotOneRoot => "command outside the root node, or root not closed",
            Refusal::SpaceTooShort => "output space too short",
            Refusal::SpanInsideCharacter => "token or node starts or ends inside a character",
            Refusal::WordNotAscii => "bare word with a byte above 127",
            Refusal::MapTooShort => "map space too short",
            Refusal::BookCommand => "book command wrong or cut short, or book longer than 65,536 bytes",
            Refusal::TooManyJobs => "257th job",
        }
    }
}

/// A refused call: which refusal it was, and its place.
///
/// ```
/// use qdesk::{needed_length, Case, Refusal, Settings};
///
/// let close_alone = [3];
/// let error = needed_length(b"", &close_alone, Settings { indent_width: 4, case: Case::UPPER }).unwrap_err();
/// assert_eq!(error.refusal(), Refusal::NotOneRoot);
/// assert_eq!((error.number(), error.place()), (12, 0));
/// assert_eq!(error.to_string(), "command outside the root node, or root not closed (refusal 12) at tape offset 0");
/// ```
#[derive(Clone, Copy, Debug, PartialEq, Eq)]
pub struct Error {
    refusal: Refusal,
    place: u64,
}

/// A number that this crate does not know is nothing a caller could act on: library and crate are of two versions.
pub(crate) fn unknown(number: u64) -> ! {
    panic!("libqdesk.a answers {number}, which this crate does not know: are both of one version?")
}

impl Error {
    /// The refusal that the library's answer names.
    pub(crate) fn of(answer: Answer) -> Error {
        let refusal = Refusal::ALL.iter().find(|refusal| **refusal as u64 == answer.number);
        let refusal = refusal.unwrap_or_else(|| unknown(answer.number));
        Error { refusal: *refusal, place: answer.value }
    }

    /// Which refusal it was.
    pub fn refusal(self) -> Refusal {
        self.refusal
    }

    /// The refusal's number: 1 to 13 or 15 to 19.
    pub fn number(self) -> u64 {
        self.refusal as u64
    }

    /// The command of the tape that the place names: the faulty one for 6 to 12, 15 and 16. None for the others, for a command that is
    /// unknown or cut (6, 7), and where the tape ends with no finished root.
    pub fn command_in(self, tape: &[u8]) -> Option<Command> {
        match self.number() {
            6..=12 | 15 | 16 => command_at(tape, usize::try_from(self.place).ok()?),
            _ => None,
        }
    }

    /// An offset in the text for 4, the faulty command's offset in the tape for 6 to 12, 15 and 16, in the book for 18 and 19, the needed
    /// length for 13, the count of numbers needed for 17, else 0.
    pub fn place(self) -> u64 {
        self.place
    }
}

impl fmt::Display for Error {
    fn fmt(&self, f: &mut fmt::Formatter<'_>) -> fmt::Result {
        write!(f, "{} (refusal {})", self.refusal.words(), self.number())?;
        match self.number() {
            4 => write!(f, " at text offset {}", self.place),
            6..=12 | 15 | 16 => write!(f, " at tape offset {}", self.place),
            13 => write!(f, ": {} bytes are needed", self.place),
            17 => write!(f, ": {} numbers are needed", self.place),
            18 | 19 => write!(f, " at book offset {}", self.place),
            _ => Ok(()),
        }
    }
}

impl std::error::Error for Error {}

/// What the library answers where the refused command is in the tape. So one error type serves for building a tape and for laying out.
impl From<TapeError> for Error {
    fn from(error: TapeError) -> Error {
        let refusal = error.fault().refusal();
        let place = if refusal == Refusal::TapeTooLong { 0 } else { error.place() as u64 };
        Error { refusal, place }
    }
}
