//! Calls that no parser makes: trees of any carried kind, tokens of any kind, any legal spans, over any ASCII text.

use super::with_settings;
use crate::answers::Case;
use crate::coverage::WORDS;
use crate::kinds;
use crate::random::Random;
use crate::source;
use crate::tape::{push_close, push_open, push_token, MOST_OPEN};

pub fn make(random: &mut Random) -> Case {
    let pieces = random.within(0, 40);
    let text = pieced_text(pieces, random);
    let mut maker = Maker { tape: Vec::new(), open: Vec::new(), text, random };
    maker.tree();
    let Maker { tape, text, .. } = maker;
    with_settings(text.bytes, tape, random)
}

/// A text, the offsets where its pieces begin and end, and the pieces of the sorts that most arms are about.
#[derive(Default)]
struct Text {
    bytes: Vec<u8>,
    bounds: Vec<u32>,
    whites: Vec<(u32, u32)>,
    comments: Vec<(u32, u32)>,
    words: Vec<(u32, u32)>,
    case_words: Vec<(u32, u32)>,
}

const PIECES: [&str; 46] = [
    "select",
    "From",
    "CASE",
    "case",
    "when",
    "THEN",
    "else",
    "End",
    "and",
    "NULL",
    "null",
    "True",
    "as",
    "by",
    "host",
    "materialize",
    "Dictionaries",
    "a",
    "xy",
    "word_with_many_letters",
    "1",
    "42",
    "--",
    "-",
    "--x",
    "-- y\n",
    "/*c*/",
    "#!",
    "'s'",
    "`q`",
    "''",
    "\"\"",
    "'a longer text'",
    "`with\nlines`",
    "(",
    ")",
    ",",
    ";",
    ".",
    " ",
    "\n",
    "\n\n",
    "\t \r\n",
    "\x0b\x0c",
    "\x1c\x1f",
    "\0\x7f",
];

fn pieced_text(pieces: usize, random: &mut Random) -> Text {
    let mut text = Text { bounds: vec![0], ..Text::default() };
    for _ in 0..pieces {
        match random.below(12) {
            0 => text.push(&[random.below(128) as u8]),
            1 => text.push(random.pick(&[" ", "\n", "-"]).as_bytes()),
            2 | 3 => text.push(a_keyword(random).as_bytes()),
            _ => text.push(random.pick(&PIECES).as_bytes()),
        }
    }
    text
}

impl Text {
    fn push(&mut self, piece: &[u8]) {
        let start = self.bytes.len() as u32;
        self.bytes.extend(piece);
        let end = self.bytes.len() as u32;
        self.bounds.push(end);
        if WORDS.iter().any(|word| word.as_bytes().eq_ignore_ascii_case(piece)) {
            self.case_words.push((start, end));
        }
        match natural_kind(piece) {
            "Whitespace" => self.whites.push((start, end)),
            "Comment" => self.comments.push((start, end)),
            "BareWord" => self.words.push((start, end)),
            _ => {}
        }
    }
}

/// A word of the source's table in one of three letter cases.
fn a_keyword(random: &mut Random) -> String {
    let word = random.pick(source::keywords());
    match random.below(3) {
        0 => word.to_string(),
        1 => word.to_lowercase(),
        _ => format!("{}{}", &word[..1], word[1..].to_lowercase()),
    }
}

struct Maker<'r> {
    tape: Vec<u8>,
    /// The kinds of the open nodes.
    open: Vec<&'static str>,
    text: Text,
    random: &'r mut Random,
}

/// One kind for each routine of the source's carried side, and the lists that routines ask for.
const NODES: [&str; 33] = [
    "File",
    "QueryList",
    "SelectStatement",
    "SelectClause",
    "FromClause",
    "GroupByClause",
    "OrderByClause",
    "LimitByClause",
    "SettingsClause",
    "WithClause",
    "JoinClause",
    "ColumnList",
    "ExpressionList",
    "GroupByList",
    "OrderByList",
    "SettingList",
    "BinaryExpression",
    "UnaryExpression",
    "FunctionCall",
    "CaseExpression",
    "WhenClause",
    "SubqueryExpression",
    "TupleExpression",
    "ArrayExpression",
    "MapExpression",
    "DataType",
    "ColumnCodec",
    "ColumnReference",
    "QualifiedName",
    "AlterCommandList",
    "UnionClause",
    "Expression",
    "Identifier",
];

/// The token kinds that most arms are about.
const FREQUENT: [&str; 3] = ["Whitespace", "Comment", "BareWord"];

/// Children that a routine asks for, or that show what it left behind; given to it more often than chance would.
const ASKED: [(&str, &str); 9] = [
    ("SelectClause", "ColumnList"),
    ("GroupByClause", "GroupByList"),
    ("OrderByClause", "OrderByList"),
    ("SettingsClause", "SettingList"),
    ("CaseExpression", "WhenClause"),
    ("UnionClause", "SelectStatement"),
    ("UnionClause", "UnionClause"),
    ("WithClause", "File"),
    ("QueryList", "Error"),
];

impl Maker<'_> {
    fn tree(&mut self) {
        self.open();
        let deep = self.random.percent(10);
        let (commands, opens, closes) = if deep { (200, 60, 20) } else { (160, 25, 30) };
        for _ in 0..self.random.below(commands) {
            if self.random.percent(opens) {
                self.open();
            } else if self.random.percent(closes) {
                self.close();
            } else if self.random.percent(10) {
                self.white_then_comment();
            } else if self.random.percent(8) {
                self.word_then_bracket();
            } else {
                self.token();
            }
        }
        self.open.iter().for_each(|_| push_close(&mut self.tape));
    }

    fn parent(&self) -> &'static str {
        self.open.last().copied().unwrap_or("none")
    }

    fn open(&mut self) {
        let kind = self.child_kind();
        self.open_kind(kind);
    }

    fn child_kind(&mut self) -> &'static str {
        let parent = self.parent();
        let asked: Vec<&str> = ASKED.iter().filter(|(asking, _)| *asking == parent).map(|(_, kind)| *kind).collect();
        if !asked.is_empty() && self.random.percent(35) {
            return self.random.pick(&asked);
        }
        match self.random.below(100) {
            0 => "Error",
            1..=60 => self.random.pick(&NODES),
            _ => any_carried(self.random),
        }
    }

    /// Opens a node unless the most are open.
    fn open_kind(&mut self, kind: &'static str) {
        if self.open.len() < MOST_OPEN {
            let (start, end) = self.node_span();
            push_open(&mut self.tape, kinds::number(kind), start, end);
            self.open.push(kind);
        }
    }

    /// Closes a node unless it is the root.
    fn close(&mut self) {
        if self.open.len() > 1 {
            push_close(&mut self.tape);
            self.open.pop();
        }
    }

    /// White space and a comment that it may put on a new line, now and then not in one node or with a copy between.
    fn white_then_comment(&mut self) {
        self.token_of("Whitespace");
        if self.random.percent(15) {
            self.copied_node();
        }
        match self.random.below(8) {
            0 => self.open(),
            1 => self.close(),
            2 | 3 => {
                self.open_kind("File");
                self.open();
            }
            _ => {}
        }
        self.token_of("Comment");
    }

    /// A name and a round bracket, which some routines set without a blank.
    fn word_then_bracket(&mut self) {
        let word = self.random.pick(&["BareWord", "QuotedIdentifier"]);
        self.token_of(word);
        self.token_of("OpeningRoundBracket");
    }

    /// A node that is copied for its Error child.
    fn copied_node(&mut self) {
        self.open_kind("Identifier");
        self.open_kind("Error");
        self.close();
        self.close();
    }

    fn token(&mut self) {
        // That routine alone tells operators from all other kinds.
        let any = if self.parent() == "BinaryExpression" { 50 } else { 15 };
        if self.random.percent(any) {
            let kind = self.random.below(usize::from(kinds::COUNT)) as u16;
            self.token_of(kinds::name(kind));
            return;
        }
        let kind = match self.random.below(6) {
            0..=2 => return self.lexed_token(),
            3 => self.random.pick(&FREQUENT),
            _ => self.random.pick(&kinds::TOKENS),
        };
        self.token_of(kind);
    }

    /// A token of the kind that its text suggests.
    fn lexed_token(&mut self) {
        let (start, end) = self.span();
        let kind = natural_kind(&self.text.bytes[start as usize..end as usize]);
        push_token(&mut self.tape, kinds::number(kind), start, end);
    }

    /// A token of this kind, mostly over a piece that suits it.
    fn token_of(&mut self, kind: &str) {
        let suited = match kind {
            "Whitespace" => &self.text.whites,
            "Comment" => &self.text.comments,
            "BareWord" if ["CaseExpression", "WhenClause"].contains(&self.parent()) => &self.text.case_words,
            "BareWord" => &self.text.words,
            _ => &Vec::new(),
        };
        let (start, end) = if suited.is_empty() || self.random.percent(20) {
            self.span()
        } else {
            suited[self.random.below(suited.len())]
        };
        push_token(&mut self.tape, kinds::number(kind), start, end);
    }

    /// A legal span, or one with start above end, which may pass the text.
    fn node_span(&mut self) -> (u32, u32) {
        match self.random.below(10) {
            0 => (u32::MAX, 0),
            1 => {
                let end = self.random.next() as u32 / 2;
                (end + 1 + self.random.below(3) as u32, end)
            }
            _ => self.span(),
        }
    }

    /// A legal span: mostly one piece, else several pieces, any bytes, no byte or the whole text.
    fn span(&mut self) -> (u32, u32) {
        let Text { bytes, bounds, .. } = &self.text;
        let length = bytes.len() as u32;
        let bound = self.random.below(bounds.len());
        let last = bounds.len() - 1;
        let start = bounds[bound];
        match self.random.below(100) {
            0..=3 => (0, length),
            4..=10 => (start, start),
            11..=20 => (start, bounds[self.random.within(bound, last)]),
            21..=30 => {
                let start = self.random.below(bytes.len() + 1) as u32;
                (start, length.min(start + self.random.below(12) as u32))
            }
            _ => (start, bounds[last.min(bound + 1)]),
        }
    }
}

fn any_carried(random: &mut Random) -> &'static str {
    loop {
        let kind = random.below(usize::from(kinds::COUNT)) as u16;
        if kinds::is_carried(kind) {
            return kinds::name(kind);
        }
    }
}

/// The kind that a lexer would give this text, roughly.
fn natural_kind(text: &[u8]) -> &'static str {
    match text.first() {
        Some(b' ' | b'\t'..=b'\r') => "Whitespace",
        Some(b'-' | b'/' | b'#') if text.len() > 1 => "Comment",
        Some(b'0'..=b'9') => "Number",
        Some(b'\'') => "StringToken",
        Some(b'`' | b'"') => "QuotedIdentifier",
        Some(b'(') => "OpeningRoundBracket",
        Some(b')') => "ClosingRoundBracket",
        Some(b',') => "Comma",
        Some(b';') => "Semicolon",
        Some(b'.') => "Dot",
        Some(b'-') => "Minus",
        _ => "BareWord",
    }
}
