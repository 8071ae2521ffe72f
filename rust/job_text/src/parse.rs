//! From a readable form to its job.

use crate::job::{Command, Job, Operands};
use crate::kinds;
use crate::line::{Fault, Line};
use crate::quote::quoted;
use crate::spans::worked_out;
use std::iter::Peekable;
use std::vec::IntoIter;

pub fn job(form: &[u8]) -> Result<Job, Fault> {
    check_size(form.len())?;
    let mut lines = Lines::of(form)?;
    let width = lines.setting("width", |line| line.number(u8::MAX))?;
    let case = lines.setting("case", case)?;
    let mut tree = Tree::over(lines.text()?);
    for line in lines.lines {
        tree.line(line)?;
    }
    let Tree { text, tape, rest, .. } = tree.finished();
    Ok(Job { width, case, text, tape, rest: rest.unwrap_or_default() })
}

/// The bytes of a job that is spelt by `bytes` lines; none where the first line is another.
pub fn bytes(form: &[u8]) -> Result<Option<Vec<u8>>, Fault> {
    let mut lines = Lines::of(form)?;
    if lines.lines.peek().is_none_or(|line| line.word() != "bytes") {
        return Ok(None);
    }
    let mut bytes = Vec::new();
    while lines.lines.peek().is_some() {
        bytes.extend(lines.setting("bytes", Line::hexadecimal)?);
    }
    Ok(Some(bytes))
}

/// Offsets have four bytes, and no text is longer than its form.
fn check_size(length: usize) -> Result<(), Fault> {
    match u32::try_from(length) {
        Ok(_) => Ok(()),
        Err(_) => Err(Fault { line: 1, column: 1, message: "the form has more than 4294967295 bytes".to_string() }),
    }
}

fn case(line: &mut Line) -> Result<u8, Fault> {
    if line.take("lower") {
        return Ok(0);
    }
    if line.take("upper") {
        return Ok(1);
    }
    let message = "expected upper, lower or a number from 0 to 255";
    line.number(u8::MAX).map_err(|fault| Fault { message: message.to_string(), ..fault })
}

/// The lines that are not blank.
struct Lines<'a> {
    lines: Peekable<IntoIter<Line<'a>>>,
    /// The number of the line behind the last.
    end: usize,
}

impl<'a> Lines<'a> {
    fn of(form: &'a [u8]) -> Result<Lines<'a>, Fault> {
        let mut lines = Vec::new();
        let mut end = 1;
        for bytes in form.split_inclusive(|byte| *byte == b'\n') {
            let line = Line::new(end, bytes.strip_suffix(b"\n").unwrap_or(bytes))?;
            end += 1;
            if !line.is_at_end() {
                lines.push(line);
            }
        }
        Ok(Lines { lines: lines.into_iter().peekable(), end })
    }

    /// What `read` makes of the next line, which begins with this name.
    fn setting<T>(&mut self, name: &str, read: impl FnOnce(&mut Line<'a>) -> Result<T, Fault>) -> Result<T, Fault> {
        let missing = Fault { line: self.end, column: 1, message: format!("expected {name}") };
        let mut line = self.lines.next().ok_or(missing)?;
        line.expect(name)?;
        let value = read(&mut line)?;
        line.end()?;
        Ok(value)
    }

    /// The text, if it is given.
    fn text(&mut self) -> Result<Option<Vec<u8>>, Fault> {
        let mut text = None;
        while self.lines.peek().is_some_and(|line| line.word() == "text") {
            let part = self.setting("text", Line::quoted)?;
            text.get_or_insert_with(Vec::new).extend(part);
        }
        Ok(text)
    }
}

struct Tree {
    /// The text: given, or the tokens' so far.
    text: Vec<u8>,
    given: bool,
    tape: Vec<Command>,
    /// The places in the tape of the nodes whose span is left out.
    bare: Vec<usize>,
    /// The nodes open.
    depth: usize,
    /// The end of the last token with a text.
    end: usize,
    /// The bytes of the `rest` lines, if there is one.
    rest: Option<Vec<u8>>,
}

impl Tree {
    fn over(text: Option<Vec<u8>>) -> Tree {
        let given = text.is_some();
        let text = text.unwrap_or_default();
        Tree { text, given, tape: Vec::new(), bare: Vec::new(), depth: 0, end: 0, rest: None }
    }

    fn line(&mut self, mut line: Line) -> Result<(), Fault> {
        self.enter(&line)?;
        match line.word() {
            "rest" => self.rest(&mut line)?,
            "close" => self.lone_close(&mut line)?,
            "token" => self.token_without_text(&mut line)?,
            _ => self.node_or_token(&mut line)?,
        }
        line.end()
    }

    /// Closes the nodes that the line's indent leaves.
    fn enter(&mut self, line: &Line) -> Result<(), Fault> {
        let level = line.level()?;
        if self.rest.is_some() && (level != self.depth || line.word() != "rest") {
            return Err(line.fault("only rest with the same indent may follow rest"));
        }
        if level > self.depth {
            return Err(line.fault(&format!("indented too far: at most {} blanks here", 2 * self.depth)));
        }
        self.close_to(level);
        Ok(())
    }

    fn close_to(&mut self, level: usize) {
        while self.depth > level {
            self.tape.push(Command::Close);
            self.depth -= 1;
        }
    }

    fn rest(&mut self, line: &mut Line) -> Result<(), Fault> {
        line.expect("rest")?;
        let bytes = line.hexadecimal()?;
        self.rest.get_or_insert_with(Vec::new).extend(bytes);
        Ok(())
    }

    fn lone_close(&mut self, line: &mut Line) -> Result<(), Fault> {
        if self.depth > 0 {
            return Err(line.fault("close stands at the margin alone; elsewhere the indent closes a node"));
        }
        line.expect("close")?;
        self.tape.push(Command::Close);
        Ok(())
    }

    fn token_without_text(&mut self, line: &mut Line) -> Result<(), Fault> {
        line.expect("token")?;
        let kind = kind(line)?;
        let token = with_span(kind, line)?;
        self.tape.push(Command::Token(token));
        Ok(())
    }

    fn node_or_token(&mut self, line: &mut Line) -> Result<(), Fault> {
        let kind = kind(line)?;
        if line.is_at_quote() {
            self.token(kind, line)
        } else {
            self.node(kind, line)
        }
    }

    fn node(&mut self, kind: u16, line: &mut Line) -> Result<(), Fault> {
        let node = if line.is_at_end() {
            self.bare.push(self.tape.len());
            Operands { kind, start: 0, end: 0 }
        } else if line.is_at_digit() {
            with_span(kind, line)?
        } else {
            return Err(line.fault("expected a quoted text or a span"));
        };
        self.tape.push(Command::Open(node));
        self.depth += 1;
        Ok(())
    }

    fn token(&mut self, kind: u16, line: &mut Line) -> Result<(), Fault> {
        let quote = line.place();
        let text = line.quoted()?;
        let start = self.start(line)?;
        if !self.given {
            self.text.extend(&text);
        }
        let end = start + text.len();
        if self.text.get(start..end) != Some(&text) {
            return Err(line.fault_at(quote, &self.other_text(start, end)));
        }
        self.end = end;
        self.tape.push(Command::Token(Operands { kind, start: start as u32, end: end as u32 }));
        Ok(())
    }

    /// Where a token's text begins: where the line says, else where the last one ended.
    fn start(&self, line: &mut Line) -> Result<usize, Fault> {
        if line.word() == "at" && !self.given {
            return Err(line.fault("at needs the text above the tree"));
        }
        if line.take("at") {
            line.number(u32::MAX).map(|start| start as usize)
        } else {
            Ok(self.end)
        }
    }

    fn other_text(&self, start: usize, end: usize) -> String {
        let length = self.text.len();
        let part = &self.text[start.min(length)..end.min(length)];
        format!("the text above the tree has {} from {start} to {end}", quoted(part))
    }

    /// Closes the nodes that no `rest` leaves open, and gives nodes the spans that were left out.
    fn finished(mut self) -> Tree {
        if self.rest.is_none() {
            self.close_to(0);
        }
        let spans = worked_out(&self.tape, &self.text);
        for place in &self.bare {
            if let Command::Open(node) = &mut self.tape[*place] {
                (node.start, node.end) = spans[*place];
            }
        }
        self
    }
}

fn kind(line: &mut Line) -> Result<u16, Fault> {
    if line.take("kind") {
        return line.number(u16::MAX);
    }
    let name = line.word();
    if name.is_empty() {
        return Err(line.fault("expected a kind"));
    }
    let number = kinds::number(name).ok_or_else(|| line.fault(&format!("no kind is named {name}")))?;
    line.take(name);
    Ok(number)
}

fn with_span(kind: u16, line: &mut Line) -> Result<Operands, Fault> {
    let start = line.number(u32::MAX)?;
    line.expect("to")?;
    let end = line.number(u32::MAX)?;
    Ok(Operands { kind, start, end })
}

#[cfg(test)]
mod tests {
    use super::check_size;

    #[test]
    fn a_form_has_no_more_bytes_than_an_offset_reaches() {
        assert!(check_size(4_294_967_295).is_ok());
        assert_eq!(
            check_size(4_294_967_296).unwrap_err().to_string(),
            "line 1, column 1: the form has more than 4294967295 bytes"
        );
    }
}
