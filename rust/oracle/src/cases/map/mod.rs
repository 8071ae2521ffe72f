//! Calls that map their tokens: those of the other classes and ones about what the map tells apart, with a map space.

pub mod limits;
pub mod masked;
mod odd;

use super::{damaged as ascii, query, small, utf8, wild, with_space};
use crate::answers::Case;
use crate::map::{needed, MapCase};
use crate::random::Random;

/// A good call of each sort in turn.
pub fn make(random: &mut Random, index: u64) -> MapCase {
    let call = good(random, index);
    with_map(with_space(call, random), random)
}

/// A good call with an empty output space.
fn good(random: &mut Random, index: u64) -> Case {
    let turn = index / 7;
    match index % 7 {
        0 => query::make(random),
        1 => wild::make(random),
        2 => small::make(random, turn),
        3 => utf8::make(random),
        4 => utf8::small::make(random, turn),
        5 => odd::make(random, 2 * turn),
        _ => odd::make(random, 2 * turn + 1),
    }
}

/// A call with faults; its map space may be short besides.
pub fn damaged(random: &mut Random) -> MapCase {
    let call = if random.percent(50) { ascii::make(random) } else { utf8::damaged::make(random) };
    with_map(call, random)
}

/// The call with a map space about as long as it needs; a refused call gets a few numbers.
fn with_map(call: Case, random: &mut Random) -> MapCase {
    let needed = needed(&call).unwrap_or(5);
    let lengths = [needed, needed, needed.saturating_sub(1), needed + 5, 0];
    let length = lengths[random.below(lengths.len())];
    lent(call, length, random)
}

/// The call with a map space of so many numbers.
fn lent(call: Case, numbers: usize, random: &mut Random) -> MapCase {
    MapCase { call, map: (0..numbers).map(|_| random.next()).collect() }
}
