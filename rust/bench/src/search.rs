//! What somebody would do who has a layout and no map of it: search for each token's text.

use crate::corpora::tokens;
use oracle::answers::Case;
use oracle::edit::text_at;

/// Line and column for each token. Its text, in any case of ASCII letters, is searched for from where the last one that was found ends; 0 and
/// 0 where it is not found, and for white space.
pub fn searched(case: &Case, output: &[u8]) -> Vec<u64> {
    let mut at = Place { offset: 0, line: 1, line_start: 0 };
    let mut map = Vec::new();
    for command in tokens(case) {
        let text = text_at(case, command).expect("accepted");
        let found = if text.trim_ascii().is_empty() { None } else { find(&output[at.offset..], text) };
        map.extend(found.map_or([0, 0], |distance| {
            at.pass(output, distance);
            let place = [at.line, (at.offset - at.line_start + 1) as u64];
            at.pass(output, text.len());
            place
        }));
    }
    map
}

/// How far from here the text stands.
fn find(output: &[u8], text: &[u8]) -> Option<usize> {
    let first = text[0];
    let ends = output.len().checked_sub(text.len())?;
    (0..=ends).find(|place| {
        output[*place].eq_ignore_ascii_case(&first) && output[*place..*place + text.len()].eq_ignore_ascii_case(text)
    })
}

/// A place in the output with its line.
struct Place {
    offset: usize,
    line: u64,
    line_start: usize,
}

impl Place {
    /// Goes on by so many bytes.
    fn pass(&mut self, output: &[u8], bytes: usize) {
        for _ in 0..bytes {
            self.offset += 1;
            if output[self.offset - 1] == b'\n' {
                self.line += 1;
                self.line_start = self.offset;
            }
        }
    }
}
