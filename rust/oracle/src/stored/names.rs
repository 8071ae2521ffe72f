//! Names of calls: a line of vectors/cases.txt, and the call that it names.

use super::by_hand;
use crate::answers::Case;
use crate::cases::{make, Class, Made};

/// The call that a line names: seed, class and index, then `first` or `second` for a text of a pair; or `hand` and a name.
pub fn call(line: &str) -> Result<Case, String> {
    let words: Vec<&str> = line.split(' ').collect();
    let case = match words[..] {
        ["hand", name] => by_hand::call(name),
        [seed, class, index] => generated(seed, class, index).and_then(single),
        [seed, class, index, which] => generated(seed, class, index).and_then(|made| of_pair(made, which)),
        _ => None,
    };
    // A name comes from a file: no control byte of it goes to the terminal.
    case.ok_or_else(|| format!("no call has the name: {}", line.escape_debug()))
}

fn generated(seed: &str, class: &str, index: &str) -> Option<Made> {
    Some(make(seed.parse().ok()?, Class::named(class)?, index.parse().ok()?))
}

fn single(made: Made) -> Option<Case> {
    match made {
        Made::Call(case) => Some(case),
        _ => None,
    }
}

fn of_pair(made: Made, which: &str) -> Option<Case> {
    let which = ["first", "second"].iter().position(|name| *name == which)?;
    match made {
        Made::Pair(pair) => Some(pair.case(which)),
        _ => None,
    }
}
