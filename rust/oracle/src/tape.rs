//! The tape: its commands, the tree that it spells, and answers 6 to 12, 15 and 16 in the order of documents 01 and 02 (E1).

use crate::kinds;

pub const OPEN: u8 = 1;
pub const TOKEN: u8 = 2;
pub const CLOSE: u8 = 3;

/// Bytes of an open or token command: command, kind, start, end.
pub const SPAN_COMMAND: usize = 11;

/// The most bytes of a tape, and of a text.
pub const MOST_BYTES: usize = 262_144;

/// The most nodes open at once.
pub const MOST_OPEN: usize = 64;

#[derive(Clone, Debug, PartialEq)]
pub struct Token {
    pub kind: u16,
    pub start: u32,
    pub end: u32,
}

#[derive(Clone, Debug, PartialEq)]
pub struct Node {
    pub kind: u16,
    pub start: u32,
    pub end: u32,
    pub children: Vec<Child>,
}

#[derive(Clone, Debug, PartialEq)]
pub enum Child {
    Token(Token),
    Node(Node),
}

/// A fault of the tape: the answer's number and the place.
#[derive(Clone, Copy, Debug, PartialEq)]
pub struct Fault {
    pub number: u64,
    pub place: usize,
}

pub fn push_open(tape: &mut Vec<u8>, kind: u16, start: u32, end: u32) {
    push_span(tape, OPEN, kind, start, end);
}

pub fn push_token(tape: &mut Vec<u8>, kind: u16, start: u32, end: u32) {
    push_span(tape, TOKEN, kind, start, end);
}

pub fn push_close(tape: &mut Vec<u8>) {
    tape.push(CLOSE);
}

fn push_span(tape: &mut Vec<u8>, command: u8, kind: u16, start: u32, end: u32) {
    tape.push(command);
    tape.extend(kind.to_le_bytes());
    tape.extend(start.to_le_bytes());
    tape.extend(end.to_le_bytes());
}

/// The length of a command by its first byte; none if there is no such command.
pub fn command_length(command: u8) -> Option<usize> {
    match command {
        OPEN | TOKEN => Some(SPAN_COMMAND),
        CLOSE => Some(1),
        _ => None,
    }
}

/// The offsets of the tape's commands up to the first that is wrong or cut.
pub fn command_places(tape: &[u8]) -> Vec<usize> {
    let mut places = Vec::new();
    let mut place = 0;
    while let Some(length) = tape.get(place).and_then(|command| command_length(*command)) {
        if place + length > tape.len() {
            break;
        }
        places.push(place);
        place += length;
    }
    places
}

/// The tree that the tape spells over a text, or its first fault.
pub fn read(tape: &[u8], text: &str) -> Result<Node, Fault> {
    let mut reader = Reader { open: Vec::new(), root: None, text };
    let mut place = 0;
    while place < tape.len() {
        let length = command_length(tape[place]).ok_or(Fault { number: 6, place })?;
        let command = tape.get(place..place + length).ok_or(Fault { number: 7, place })?;
        reader.take(command).map_err(|number| Fault { number, place })?;
        place += length;
    }
    reader.root.ok_or(Fault { number: 12, place })
}

struct Reader<'t> {
    open: Vec<Node>,
    root: Option<Node>,
    text: &'t str,
}

impl Reader<'_> {
    /// Takes one whole command; the error is the answer's number, tried in the order 12, 8, 9, 10, 15, 16, 11.
    fn take(&mut self, command: &[u8]) -> Result<(), u64> {
        if self.root.is_some() || (command[0] != OPEN && self.open.is_empty()) {
            return Err(12);
        }
        if command[0] == CLOSE {
            self.close();
            return Ok(());
        }
        let kind = u16::from_le_bytes([command[1], command[2]]);
        let start = u32::from_le_bytes([command[3], command[4], command[5], command[6]]);
        let end = u32::from_le_bytes([command[7], command[8], command[9], command[10]]);
        if kind >= kinds::COUNT {
            return Err(8);
        }
        if command[0] == TOKEN {
            self.token(Token { kind, start, end })
        } else {
            self.node(Node { kind, start, end, children: Vec::new() })
        }
    }

    /// 10 and 15 for a span whose start is not above its end.
    fn check_span(&self, start: u32, end: u32) -> Result<(), u64> {
        if end as usize > self.text.len() {
            return Err(10);
        }
        if self.is_inside(start) || self.is_inside(end) {
            return Err(15);
        }
        Ok(())
    }

    /// Whether a place is inside a character.
    fn is_inside(&self, place: u32) -> bool {
        !self.text.is_char_boundary(place as usize)
    }

    fn token(&mut self, token: Token) -> Result<(), u64> {
        if token.start > token.end {
            return Err(10);
        }
        self.check_span(token.start, token.end)?;
        if token.kind == kinds::BARE_WORD && !self.text[token.start as usize..token.end as usize].is_ascii() {
            return Err(16);
        }
        self.parent().push(Child::Token(token));
        Ok(())
    }

    fn node(&mut self, node: Node) -> Result<(), u64> {
        if !kinds::is_carried(node.kind) {
            return Err(9);
        }
        if node.start <= node.end {
            self.check_span(node.start, node.end)?;
        }
        if self.open.len() == MOST_OPEN {
            return Err(11);
        }
        self.open.push(node);
        Ok(())
    }

    fn close(&mut self) {
        let node = self.open.pop().expect("a close with no node open was refused");
        if self.open.is_empty() {
            self.root = Some(node);
        } else {
            self.parent().push(Child::Node(node));
        }
    }

    fn parent(&mut self) -> &mut Vec<Child> {
        &mut self.open.last_mut().expect("a command with no node open was refused").children
    }
}
