//! Wrong maps: other places, other lines and columns for them, other tokens.

use super::Fault;
use oracle::answers::{accepted_tree, Case};
use oracle::map::{laid_out, tokens, Layout};
use oracle::masking::is_copied;
use oracle::source;
use oracle::tape::{Child, Node, Token};
use std::collections::BTreeMap;

/// No fault: the right numbers, worked out as those of the faults are.
pub const NONE: Fault = Fault::Map(|known| known.layout.numbers());

pub const MAPS: [(&str, Fault); 18] = [
    ("columns from 0", Fault::Map(|known| known.moved(|[line, column]| [line, column - 1]))),
    ("a line one too low", Fault::Map(|known| known.moved(|[line, column]| [line - 1, column]))),
    ("the column before the line", Fault::Map(|known| known.moved(|[line, column]| [column, line]))),
    ("columns in characters", Fault::Map(columns_in_characters)),
    ("newlines in texts that begin no line", Fault::Map(newlines_in_texts)),
    ("a newline on the line after it", Fault::Map(newline_on_the_line_after)),
    ("the indent's place", Fault::Map(indent_s_place)),
    ("the place of the blank before", Fault::Map(blank_before)),
    ("the place of the last byte", Fault::Map(last_byte)),
    ("white text at its first other byte", Fault::Map(first_other_byte)),
    ("a trimmed token placed", Fault::Map(trimmed_placed)),
    ("an empty token placed", Fault::Map(empty_placed)),
    ("a sign over other text not placed", Fault::Map(sign_not_placed)),
    ("tokens of one span at the first one's place", Fault::Map(one_place_for_a_span)),
    ("a token below a copied node placed", Fault::Map(below_a_copy_placed)),
    ("tokens below a copied node not counted", Fault::Map(below_a_copy_not_counted)),
    ("tokens that are not written not counted", Fault::Map(not_written_not_counted)),
    ("tokens in another order", Fault::Map(another_order)),
];

/// An accepted call with its tree and its layout.
pub struct Known {
    call: Case,
    root: Node,
    layout: Layout,
}

impl Known {
    pub fn of(call: &Case) -> Option<Known> {
        let (root, layout) = (accepted_tree(call).ok()?, laid_out(call).ok()?);
        Some(Known { call: call.clone(), root, layout })
    }

    pub fn output(&self) -> &[u8] {
        self.layout.output.as_bytes()
    }

    fn own_text(&self, token: &Token) -> &str {
        let bytes = &self.call.text[token.start as usize..token.end as usize];
        std::str::from_utf8(bytes).expect("an accepted call's text")
    }

    /// The tokens with their places.
    fn placed(&self) -> impl Iterator<Item = (&Token, Option<usize>)> {
        tokens(&self.root).into_iter().zip(self.layout.places.iter().copied())
    }

    /// Where the bytes of each token begin before trimming.
    fn starts(&self) -> Vec<Option<usize>> {
        let text = std::str::from_utf8(&self.call.text).expect("an accepted call's text");
        source::recorded(&self.root, self.call.width as usize, self.call.case == 1, text).1
    }

    /// The map with each token at the place that is made of its own.
    fn with_places(&self, place: impl Fn(&Token, Option<usize>) -> Option<usize>) -> Vec<u64> {
        let places = self.placed().map(|(token, own)| place(token, own)).collect();
        Layout { output: self.layout.output.clone(), places }.numbers()
    }

    /// The map with another line and column for each token that is placed.
    fn moved(&self, change: fn([u64; 2]) -> [u64; 2]) -> Vec<u64> {
        self.moved_at(|_, numbers| change(numbers))
    }

    /// The same by the token's place.
    fn moved_at(&self, change: impl Fn(usize, [u64; 2]) -> [u64; 2]) -> Vec<u64> {
        let numbers = self.layout.numbers();
        let pairs = numbers.chunks(2).map(|pair| [pair[0], pair[1]]).zip(&self.layout.places);
        pairs.flat_map(|(pair, place)| place.map_or(pair, |place| change(place, pair))).collect()
    }

    /// The bytes of its line before a place in this column.
    fn line_before(&self, place: usize, column: u64) -> &[u8] {
        &self.output()[place + 1 - column as usize..place]
    }

    /// The numbers of the tokens that are told to count.
    fn counted(&self, counts: &[bool]) -> Vec<u64> {
        let numbers = self.layout.numbers();
        numbers.chunks(2).zip(counts).filter(|(_, counts)| **counts).flat_map(|(pair, _)| pair.to_vec()).collect()
    }
}

// Other lines and columns

fn columns_in_characters(known: &Known) -> Vec<u64> {
    let is_first = |byte: &&u8| **byte & 0xC0 != 0x80;
    known.moved_at(|place, [line, column]| {
        [line, 1 + known.line_before(place, column).iter().filter(is_first).count() as u64]
    })
}

fn newlines_in_texts(known: &Known) -> Vec<u64> {
    let output = known.output();
    let mut is_in_text = vec![false; output.len()];
    for (token, place) in known.placed() {
        let Some(place) = place else { continue };
        if output[place..].starts_with(known.own_text(token).as_bytes()) {
            is_in_text[place..place + known.own_text(token).len()].fill(true);
        }
    }
    let is_newline = |place: &usize| output[*place] == b'\n' && !is_in_text[*place];
    known.moved_at(|place, _| {
        let line_start = (0..place).rev().find(is_newline).map_or(0, |newline| newline + 1);
        [1 + (0..place).filter(is_newline).count() as u64, (place - line_start + 1) as u64]
    })
}

fn newline_on_the_line_after(known: &Known) -> Vec<u64> {
    known.moved_at(|place, pair| if known.output()[place] == b'\n' { [pair[0] + 1, 1] } else { pair })
}

fn indent_s_place(known: &Known) -> Vec<u64> {
    known.moved_at(|place, [line, column]| {
        let is_indented = known.line_before(place, column).iter().all(|byte| *byte == b' ');
        [line, if is_indented { 1 } else { column }]
    })
}

// Other places

fn blank_before(known: &Known) -> Vec<u64> {
    let is_blank = |place: usize| known.output()[..place].ends_with(b" ");
    known.with_places(|_, place| place.map(|place| if is_blank(place) { place - 1 } else { place }))
}

fn last_byte(known: &Known) -> Vec<u64> {
    known.with_places(|token, place| place.map(|place| place + known.own_text(token).len() - 1))
}

fn first_other_byte(known: &Known) -> Vec<u64> {
    let white = |token: &Token| known.own_text(token).len() - known.own_text(token).trim_start().len();
    known.with_places(|token, place| {
        let is_typed = |place: usize| known.output()[place..].starts_with(known.own_text(token).as_bytes());
        place.map(|place| if is_typed(place) { place + white(token) } else { place })
    })
}

fn trimmed_placed(known: &Known) -> Vec<u64> {
    let is_empty = |token: &Token| token.start == token.end;
    from_starts(known, |token, _| !is_empty(token))
}

fn empty_placed(known: &Known) -> Vec<u64> {
    from_starts(known, |_, start| start + 1 < known.output().len())
}

/// The map with each written token where its bytes begin, if that is told to count.
fn from_starts(known: &Known, counts: impl Fn(&Token, usize) -> bool) -> Vec<u64> {
    let starts = tokens(&known.root).into_iter().zip(known.starts());
    let places = starts.map(|(token, start)| start.filter(|start| counts(token, *start))).collect();
    Layout { output: known.layout.output.clone(), places }.numbers()
}

fn sign_not_placed(known: &Known) -> Vec<u64> {
    known.with_places(|token, place| {
        let first = known.own_text(token).bytes().next();
        place.filter(|place| first.is_some_and(|first| first.eq_ignore_ascii_case(&known.output()[*place])))
    })
}

fn one_place_for_a_span(known: &Known) -> Vec<u64> {
    let mut firsts = BTreeMap::new();
    for (token, place) in known.placed().filter(|(_, place)| place.is_some()) {
        firsts.entry((token.start, token.end)).or_insert(place);
    }
    known.with_places(|token, place| place.and_then(|_| firsts[&(token.start, token.end)]))
}

/// Placed by a search.
fn below_a_copy_placed(known: &Known) -> Vec<u64> {
    let is_below = below_a_copy(&known.root, false);
    let tokens = known.placed().zip(is_below);
    let found = |token: &Token| known.layout.output.find(known.own_text(token));
    let places = tokens.map(|((token, place), is_below)| if is_below { found(token) } else { place }).collect();
    Layout { output: known.layout.output.clone(), places }.numbers()
}

// Other tokens

/// Whether a node that is copied as typed is above each token.
fn below_a_copy(node: &Node, is_below: bool) -> Vec<bool> {
    let is_below = is_below || is_copied(node);
    let of_child = |child: &Child| match child {
        Child::Token(_) => vec![is_below],
        Child::Node(node) => below_a_copy(node, is_below),
    };
    node.children.iter().flat_map(of_child).collect()
}

fn below_a_copy_not_counted(known: &Known) -> Vec<u64> {
    let counts: Vec<bool> = below_a_copy(&known.root, false).iter().map(|is_below| !is_below).collect();
    known.counted(&counts)
}

fn not_written_not_counted(known: &Known) -> Vec<u64> {
    let counts: Vec<bool> = known.layout.places.iter().map(Option::is_some).collect();
    known.counted(&counts)
}

fn another_order(known: &Known) -> Vec<u64> {
    let numbers = known.layout.numbers();
    numbers.chunks(2).rev().flatten().copied().collect()
}
