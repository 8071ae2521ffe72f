//! The masking rule in the form of document 02 (E1): its conditions on two texts and one tree, and its claim as far as outputs show it.

use crate::answers::{accepted_tree, answer, in_no_space, Answered, Case};
use crate::kinds;
use crate::source;
use crate::tape::{Child, Node, Token};
use crate::text::{accepted, is_white_space};
use std::ops::Range;

/// Two calls that differ in their texts alone.
#[derive(Clone, Debug, PartialEq)]
pub struct Pair {
    pub texts: [Vec<u8>; 2],
    pub tape: Vec<u8>,
    pub width: u64,
    pub case: u64,
    pub space: Vec<u8>,
}

impl Pair {
    /// The call on the first text (0) or the second (1).
    pub fn case(&self, which: usize) -> Case {
        let text = self.texts[which].clone();
        Case { text, tape: self.tape.clone(), width: self.width, case: self.case, space: self.space.clone() }
    }
}

/// A condition that a pair does not meet.
#[derive(Clone, Copy, Debug, PartialEq)]
pub enum Breach {
    LengthsDiffer,
    /// One of the calls answers 4, 15 or 16.
    TextRefused,
    /// A differing byte is a newline in one of the texts.
    Newline,
    /// A differing byte lies in no token.
    InNoToken,
    /// A differing byte lies in a token that is not quoted.
    NotQuoted,
    /// A differing byte lies, in one of the texts, in the first or last character of a quoted token.
    NotInside,
    /// A differing byte lies in a node copied as typed.
    Copied,
    /// A quoted token that holds a differing byte ends in white space in one of the texts.
    EndsInWhite,
}

/// The conditions that a pair does not meet, each once. A refused pair has none but those on its lengths and on 4, 15 and 16.
pub fn breaches(pair: &Pair) -> Vec<Breach> {
    if pair.texts[0].len() != pair.texts[1].len() {
        return vec![Breach::LengthsDiffer];
    }
    let trees = [0, 1].map(|which| accepted_tree(&pair.case(which)));
    if trees.iter().any(|tree| tree.as_ref().is_err_and(|answer| [4, 15, 16].contains(&answer.number))) {
        return vec![Breach::TextRefused];
    }
    trees[0].as_ref().map_or(Vec::new(), |root| tree_breaches(&pair.texts, &Held::of(root)))
}

fn tree_breaches(texts: &[Vec<u8>; 2], held: &Held) -> Vec<Breach> {
    let mut found = Vec::new();
    for place in differing(&texts[0], &texts[1]) {
        for text in texts.iter().map(|text| accepted(text)) {
            found.extend(held.breaches_at(text, place));
            found.extend((text.as_bytes()[place] == b'\n').then_some(Breach::Newline));
            found.extend(held.ends_in_white(text, place).then_some(Breach::EndsInWhite));
        }
    }
    found.sort_by_key(|breach| *breach as u8);
    found.dedup();
    found
}

/// The places where two texts of one length differ.
pub fn differing(first: &[u8], second: &[u8]) -> Vec<usize> {
    (0..first.len()).filter(|place| first[*place] != second[*place]).collect()
}

fn is_quoted(token: &Token) -> bool {
    [kinds::number("StringToken"), kinds::number("QuotedIdentifier")].contains(&token.kind)
}

/// Whether a node is copied as typed wherever the walk meets it.
pub fn is_copied(node: &Node) -> bool {
    let error = kinds::number("Error");
    let is_error = |child: &Child| matches!(child, Child::Node(node) if node.kind == error);
    node.kind == error || (node.kind != kinds::number("QueryList") && node.children.iter().any(is_error))
}

/// The spans of a tree's tokens, quoted and other, and of its nodes copied as typed.
#[derive(Default)]
pub struct Held {
    pub quoted: Vec<Range<usize>>,
    others: Vec<Range<usize>>,
    copied: Vec<Range<usize>>,
}

impl Held {
    pub fn of(root: &Node) -> Held {
        let mut held = Held::default();
        held.add(root);
        held
    }

    fn add(&mut self, node: &Node) {
        if is_copied(node) {
            self.copied.push(node.start as usize..node.end as usize);
        }
        for child in &node.children {
            match child {
                Child::Token(token) if is_quoted(token) => self.quoted.push(span(token)),
                Child::Token(token) => self.others.push(span(token)),
                Child::Node(node) => self.add(node),
            }
        }
    }

    fn quoted_at(&self, place: usize) -> impl Iterator<Item = &Range<usize>> {
        self.quoted.iter().filter(move |span| span.contains(&place))
    }

    /// The conditions on tokens and nodes that a place of this text does not meet.
    pub fn breaches_at(&self, text: &str, place: usize) -> Vec<Breach> {
        let in_quoted = self.quoted_at(place).next().is_some();
        let at_edge = self.quoted_at(place).any(|span| !inner(text, span).contains(&place));
        let in_other = self.others.iter().any(|span| span.contains(&place));
        let in_copied = self.copied.iter().any(|span| span.contains(&place));
        [
            (!in_quoted && !in_other, Breach::InNoToken),
            (in_other, Breach::NotQuoted),
            (at_edge, Breach::NotInside),
            (in_copied, Breach::Copied),
        ]
        .into_iter()
        .filter_map(|(missed, breach)| missed.then_some(breach))
        .collect()
    }

    /// Whether a quoted token that holds the place ends in white space.
    fn ends_in_white(&self, text: &str, place: usize) -> bool {
        self.quoted_at(place).any(|span| text[span.clone()].ends_with(is_white_space))
    }
}

fn span(token: &Token) -> Range<usize> {
    token.start as usize..token.end as usize
}

/// What lies strictly between the first and the last character of a part that is not empty.
fn inner(text: &str, span: &Range<usize>) -> Range<usize> {
    let length = |character: Option<char>| character.map_or(0, char::len_utf8);
    let part = &text[span.clone()];
    span.start + length(part.chars().next())..span.end - length(part.chars().next_back())
}

/// The rule's claim about both calls, and about those with an output space of 0 bytes; the error says what does not hold.
pub fn claim(pair: &Pair) -> Result<(), String> {
    let [first, second] = [0, 1].map(|which| in_no_space(&pair.case(which)));
    if first != second {
        return Err(format!("in no space {first:?} and {second:?}"));
    }
    let [first, second] = [0, 1].map(|which| answer(&pair.case(which)));
    if first.laid_out != second.laid_out {
        return Err(format!("laid out {:?} and {:?}", first.laid_out, second.laid_out));
    }
    match accepted_tree(&pair.case(0)) {
        Ok(root) => accepted_claim(pair, &Layout::of(&root, pair)),
        Err(_) => untouched(pair, &first, &second),
    }
}

fn untouched(pair: &Pair, first: &Answered, second: &Answered) -> Result<(), String> {
    if first.space != pair.space || second.space != pair.space {
        return Err("a refusal wrote".to_string());
    }
    Ok(())
}

fn accepted_claim(pair: &Pair, layout: &Layout) -> Result<(), String> {
    let [first, second] = [0, 1].map(|which| layout.of_text(&pair.texts[which]));
    bytes_claim(pair, layout, [&first, &second])?;
    lines_claim(pair, &first, &second)
}

/// The layout of one tree by the source, for any text of its length.
struct Layout {
    tree: source::Tree,
    width: usize,
    upper: bool,
}

impl Layout {
    fn of(root: &Node, pair: &Pair) -> Layout {
        Layout { tree: source::tree(root), width: pair.width as usize, upper: pair.case == 1 }
    }

    fn of_text(&self, text: &[u8]) -> Vec<u8> {
        source::format_tree(&self.tree, self.width, self.upper, accepted(text)).into_bytes()
    }
}

/// Both outputs have each byte that came from a masked place as their own text has it, and all others alike.
fn bytes_claim(pair: &Pair, layout: &Layout, outputs: [&[u8]; 2]) -> Result<(), String> {
    let places = masked_places(pair);
    let Origins { around, places } = Origins::of(layout, &pair.texts[0], &places)?;
    for (text, output) in pair.texts.iter().zip(outputs) {
        let expected: Vec<u8> =
            places.iter().zip(&around).map(|(origin, byte)| origin.map_or(*byte, |place| text[place])).collect();
        if expected != output {
            return Err(format!("output {} instead of {}", output.escape_ascii(), expected.escape_ascii()));
        }
    }
    Ok(())
}

/// The places of the characters that are not the same in both texts.
fn masked_places(pair: &Pair) -> Vec<usize> {
    let [first, second] = &pair.texts;
    let characters = accepted(first).char_indices().map(|(start, character)| start..start + character.len_utf8());
    characters.filter(|character| first[character.clone()] != second[character.clone()]).flatten().collect()
}

/// Where each byte of a layout came from, as far as some places of the text go.
struct Origins {
    /// The layout of the text with a letter at each of these places.
    around: Vec<u8>,
    /// For each byte of the layout the one of these places that it came from, if any.
    places: Vec<Option<usize>>,
}

/// What stands at the places whose origins are looked for: one of two letters.
const LETTERS: [u8; 2] = *b"qw";

impl Origins {
    /// Seen by laying out texts in which the letters at each place are the binary digits of its number, from 1.
    fn of(layout: &Layout, text: &[u8], places: &[usize]) -> Result<Origins, String> {
        let spelled = |digit: u32| {
            let mut text = text.to_vec();
            places.iter().zip(1..).for_each(|(place, number)| text[*place] = LETTERS[number >> digit & 1]);
            layout.of_text(&text)
        };
        let digits = usize::BITS - places.len().leading_zeros();
        // By a digit that all numbers lack.
        let around = spelled(digits);
        let mut numbers = vec![0; around.len()];
        for digit in 0..digits {
            add_digit(&mut numbers, digit, &around, &spelled(digit))?;
        }
        let places: Option<Vec<_>> = numbers.into_iter().map(|number| numbered(number, places)).collect();
        Ok(Origins { around, places: places.ok_or("a byte came from several masked places")? })
    }
}

/// Adds a digit to the numbers of the bytes that came from a place whose number has it.
fn add_digit(numbers: &mut [usize], digit: u32, around: &[u8], output: &[u8]) -> Result<(), String> {
    if output.len() != around.len() {
        return Err("letters at masked places change the length".to_string());
    }
    for offset in differing(around, output) {
        if [around[offset], output[offset]] != LETTERS {
            return Err(format!("masked places change byte {offset}, which came from none"));
        }
        numbers[offset] |= 1 << digit;
    }
    Ok(())
}

/// The place of a number, or none for 0; no answer if there is no such place.
fn numbered(number: usize, places: &[usize]) -> Option<Option<usize>> {
    match number {
        0 => Some(None),
        _ => places.get(number - 1).map(|place| Some(*place)),
    }
}

/// Line for line: where byte 10 stands at the same places of both texts, it does so in both outputs.
fn lines_claim(pair: &Pair, first: &[u8], second: &[u8]) -> Result<(), String> {
    let newlines = |bytes: &[u8]| -> Vec<usize> { (0..bytes.len()).filter(|place| bytes[*place] == 10).collect() };
    let same_in_texts = newlines(&pair.texts[0]) == newlines(&pair.texts[1]);
    if same_in_texts && newlines(first) != newlines(second) {
        return Err("lines differ".to_string());
    }
    Ok(())
}
