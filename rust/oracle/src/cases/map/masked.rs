//! Pairs under the masking rule, lent the same spaces, in which no masked place holds a newline.

use super::super::{masked, utf8};
use super::with_map;
use crate::answers::accepted_tree;
use crate::map::{MapCase, MapPair};
use crate::masking::{differing, Pair};
use crate::random::Random;

pub fn make(random: &mut Random) -> MapPair {
    let calls = pair(random);
    let MapCase { map, .. } = with_map(calls.case(0), random);
    MapPair { calls, map }
}

/// A pair of either class that masks.
pub fn pair(random: &mut Random) -> Pair {
    match random.percent(50) {
        true => ascii(random),
        false => utf8::masked::make(random),
    }
}

/// A pair of the class for ASCII, which lets newlines differ; here they do in a refused pair alone.
fn ascii(random: &mut Random) -> Pair {
    let mut pair = masked::make(random);
    if accepted_tree(&pair.case(0)).is_ok() {
        let [first, second] = &mut pair.texts;
        for place in differing(first, second) {
            if first[place] == b'\n' || second[place] == b'\n' {
                second[place] = first[place];
            }
        }
    }
    pair
}
