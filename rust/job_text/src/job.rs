//! A job as document 01 has it: two settings, the text and the tape's commands, from bytes and to bytes.

use std::fmt;

const WIDTH: u8 = 0x10;
const CASE: u8 = 0x11;
const TEXT: u8 = 0x12;
const OPEN: u8 = 1;
const TOKEN: u8 = 2;
const CLOSE: u8 = 3;

/// What an open or token command says: a kind and a span of the text.
#[derive(Clone, Copy)]
pub struct Operands {
    pub kind: u16,
    pub start: u32,
    pub end: u32,
}

#[derive(Clone, Copy)]
pub enum Command {
    Open(Operands),
    Token(Operands),
    Close,
}

/// A job whose header is whole.
pub struct Job {
    pub(crate) width: u8,
    pub(crate) case: u8,
    pub(crate) text: Vec<u8>,
    pub(crate) tape: Vec<Command>,
    /// The tape's bytes from the first command that is wrong or cut.
    pub(crate) rest: Vec<u8>,
}

/// A header command that is missing, wrong or cut short, and the offset where it is due.
#[derive(Debug, PartialEq)]
pub struct HeaderFault {
    pub place: usize,
    pub message: &'static str,
}

impl fmt::Display for HeaderFault {
    fn fmt(&self, out: &mut fmt::Formatter<'_>) -> fmt::Result {
        write!(out, "byte {}: {}", self.place, self.message)
    }
}

impl Operands {
    /// The part of the text that the span holds; none where it runs backwards or passes the text.
    pub fn text_in<'a>(&self, text: &'a [u8]) -> Option<&'a [u8]> {
        text.get(self.start as usize..self.end as usize)
    }
}

impl Job {
    /// The job of these bytes.
    pub fn read(bytes: &[u8]) -> Result<Job, HeaderFault> {
        let fault = |place, message| HeaderFault { place, message };
        let (width, bytes) =
            byte_operand(bytes, WIDTH).ok_or(fault(0, "expected command 10 (hexadecimal) and the width"))?;
        let (case, bytes) =
            byte_operand(bytes, CASE).ok_or(fault(2, "expected command 11 (hexadecimal) and the case"))?;
        let (text, tape) = text_operand(bytes)
            .ok_or(fault(4, "expected command 12 (hexadecimal), the text's length and that many bytes"))?;
        let (tape, rest) = commands(tape);
        Ok(Job { width, case, text: text.to_vec(), tape, rest: rest.to_vec() })
    }

    pub(crate) fn write(&self) -> Vec<u8> {
        let mut bytes = vec![WIDTH, self.width, CASE, self.case, TEXT];
        bytes.extend((self.text.len() as u32).to_le_bytes());
        bytes.extend(&self.text);
        bytes.extend(self.tape());
        bytes
    }

    /// Width and case.
    pub fn settings(&self) -> (u8, u8) {
        (self.width, self.case)
    }

    pub fn text(&self) -> &[u8] {
        &self.text
    }

    /// The tape's bytes.
    pub fn tape(&self) -> Vec<u8> {
        let mut bytes = Vec::new();
        self.tape.iter().for_each(|command| command.write(&mut bytes));
        bytes.extend(&self.rest);
        bytes
    }

    pub(crate) fn tokens(&self) -> impl Iterator<Item = Operands> + '_ {
        self.tape.iter().filter_map(|command| match command {
            Command::Token(token) => Some(*token),
            _ => None,
        })
    }
}

fn byte_operand(bytes: &[u8], command: u8) -> Option<(u8, &[u8])> {
    match bytes {
        [first, operand, rest @ ..] if *first == command => Some((*operand, rest)),
        _ => None,
    }
}

fn text_operand(bytes: &[u8]) -> Option<(&[u8], &[u8])> {
    match bytes {
        [TEXT, a, b, c, d, rest @ ..] => rest.split_at_checked(u32::from_le_bytes([*a, *b, *c, *d]) as usize),
        _ => None,
    }
}

/// The tape's whole commands, and what follows them.
fn commands(mut tape: &[u8]) -> (Vec<Command>, &[u8]) {
    let mut found = Vec::new();
    while let Some((command, rest)) = Command::read(tape) {
        found.push(command);
        tape = rest;
    }
    (found, tape)
}

impl Command {
    fn read(tape: &[u8]) -> Option<(Command, &[u8])> {
        match tape {
            [OPEN, rest @ ..] => Operands::read(rest).map(|(node, rest)| (Command::Open(node), rest)),
            [TOKEN, rest @ ..] => Operands::read(rest).map(|(token, rest)| (Command::Token(token), rest)),
            [CLOSE, rest @ ..] => Some((Command::Close, rest)),
            _ => None,
        }
    }

    fn write(&self, bytes: &mut Vec<u8>) {
        match self {
            Command::Open(node) => node.write(OPEN, bytes),
            Command::Token(token) => token.write(TOKEN, bytes),
            Command::Close => bytes.push(CLOSE),
        }
    }
}

impl Operands {
    fn read(bytes: &[u8]) -> Option<(Operands, &[u8])> {
        let (kind, rest) = bytes.split_first_chunk()?;
        let (start, rest) = rest.split_first_chunk()?;
        let (end, rest) = rest.split_first_chunk()?;
        let operands = Operands {
            kind: u16::from_le_bytes(*kind),
            start: u32::from_le_bytes(*start),
            end: u32::from_le_bytes(*end),
        };
        Some((operands, rest))
    }

    fn write(&self, command: u8, bytes: &mut Vec<u8>) {
        bytes.push(command);
        bytes.extend(self.kind.to_le_bytes());
        bytes.extend(self.start.to_le_bytes());
        bytes.extend(self.end.to_le_bytes());
    }
}
