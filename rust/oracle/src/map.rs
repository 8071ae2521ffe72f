//! The call that lays out and maps its tokens, as document 02 (E3) answers it.

use crate::answers::{read, Answer, Case};
use crate::masking::Pair;
use crate::source;
use crate::tape::{Child, Node, Token};

/// One call: that of laying out, and the map space with its numbers before the call.
#[derive(Clone, Debug, PartialEq)]
pub struct MapCase {
    pub call: Case,
    pub map: Vec<u64>,
}

/// What the call answers, and both spaces afterwards.
#[derive(Clone, Debug, PartialEq)]
pub struct Mapped {
    pub answer: Answer,
    pub space: Vec<u8>,
    pub map: Vec<u64>,
}

pub fn answer(case: &MapCase) -> Mapped {
    let (mut space, mut map) = (case.call.space.clone(), case.map.clone());
    let answer = match read(&case.call) {
        Ok((text, root)) => fill(&Layout::of(text, &root, &case.call), &mut space, &mut map),
        Err(refusal) => refusal,
    };
    Mapped { answer, space, map }
}

/// Writes the layout and the map, unless 13 or 17 is due, in this order.
fn fill(layout: &Layout, space: &mut [u8], map: &mut [u64]) -> Answer {
    let numbers = layout.numbers();
    let (length, count) = (layout.output.len(), numbers.len());
    if space.len() < length {
        return Answer { number: 13, second: length as u64 };
    }
    if map.len() < count {
        return Answer { number: 17, second: count as u64 };
    }
    space[..length].copy_from_slice(layout.output.as_bytes());
    map[..count].copy_from_slice(&numbers);
    Answer { number: 0, second: length as u64 }
}

/// The layout of an accepted input, and the place of each token's first byte in it.
pub struct Layout {
    pub output: String,
    /// An offset in the output for each token in the tape's order; none where the map has 0 and 0.
    pub places: Vec<Option<usize>>,
}

impl Layout {
    /// By the source, and by the recorder's walk of the same routines, which must give the same bytes.
    pub fn of(text: &str, root: &Node, call: &Case) -> Layout {
        let recorded = Layout::recorded(text, root, call);
        let output = source::format(root, call.width as usize, call.case == 1, text);
        assert_eq!(recorded.output, output, "the recorder's layout is not the source's");
        recorded
    }

    /// By the recorder's walk alone.
    pub fn recorded(text: &str, root: &Node, call: &Case) -> Layout {
        let width = usize::try_from(call.width).expect("1 was tried");
        let (output, starts) = source::recorded(root, width, call.case == 1, text);
        let places = tokens(root).iter().zip(starts).map(|(token, start)| place(token, start, &output)).collect();
        Layout { output, places }
    }

    /// Line and column for each token.
    pub fn numbers(&self) -> Vec<u64> {
        let lines = line_starts(&self.output);
        let of_place = |place: &Option<usize>| place.map_or([0, 0], |place| line_and_column(&lines, place));
        self.places.iter().flat_map(of_place).collect()
    }
}

/// The layout and the places of its tokens, or the first refusal, 13 and 17 aside.
pub fn laid_out(call: &Case) -> Result<Layout, Answer> {
    read(call).map(|(text, root)| Layout::of(text, &root, call))
}

/// The call with both spaces as long as it needs; of nothing where it is refused before.
pub fn with_exact_spaces(call: Case) -> MapCase {
    let (bytes, numbers) = laid_out(&call).map_or((0, 0), |layout| (layout.output.len(), 2 * layout.places.len()));
    MapCase { call: Case { space: vec![0; bytes], ..call }, map: vec![0; numbers] }
}

/// The count of numbers that the map space needs, two for each token; none where the call is refused before.
pub fn needed(call: &Case) -> Option<usize> {
    read(call).ok().map(|(_, root)| 2 * tokens(&root).len())
}

/// The tokens of a tree in the tape's order.
pub fn tokens(root: &Node) -> Vec<&Token> {
    fn of_child(child: &Child) -> Vec<&Token> {
        match child {
            Child::Token(token) => vec![token],
            Child::Node(node) => tokens(node),
        }
    }
    root.children.iter().flat_map(of_child).collect()
}

/// Where a token's first byte stands in the output, if it is written, its text is not empty and trimming leaves it.
fn place(token: &Token, start: Option<usize>, output: &str) -> Option<usize> {
    let is_empty = token.start == token.end;
    start.filter(|start| !is_empty && *start < trimmed_length(output))
}

/// The length without the newline that `finish` adds.
fn trimmed_length(output: &str) -> usize {
    output.len().saturating_sub(1)
}

/// The offsets at which the output's lines begin.
fn line_starts(output: &str) -> Vec<usize> {
    [0].into_iter().chain(output.match_indices('\n').map(|(place, _)| place + 1)).collect()
}

/// The last line that begins at or before the place, and the place in it: both from 1, columns in bytes.
fn line_and_column(lines: &[usize], place: usize) -> [u64; 2] {
    let line = lines.partition_point(|start| *start <= place);
    [line as u64, (place - lines[line - 1] + 1) as u64]
}

/// Two calls that differ in their texts alone, lent the same spaces.
#[derive(Clone, Debug, PartialEq)]
pub struct MapPair {
    pub calls: Pair,
    pub map: Vec<u64>,
}

impl MapPair {
    /// The call on the first text (0) or the second (1).
    pub fn case(&self, which: usize) -> MapCase {
        MapCase { call: self.calls.case(which), map: self.map.clone() }
    }
}

/// The masking rule's claim about the map: both answers are equal, and both maps number for number; the error says what is not. What the
/// rule says of the output spaces is `masking::claim`.
pub fn claim(pair: &MapPair) -> Result<(), String> {
    let [first, second] = [0, 1].map(|which| answer(&pair.case(which)));
    if first.answer != second.answer {
        return Err(format!("mapped {:?} and {:?}", first.answer, second.answer));
    }
    if first.map != second.map {
        return Err(format!("maps {:?} and {:?}", first.map, second.map));
    }
    Ok(())
}
