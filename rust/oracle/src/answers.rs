//! The call that lays out, as documents 01 and 02 (E1, E5) answer it.

use crate::source;
use crate::tape::{self, Node, MOST_BYTES};
use crate::text;

/// One call: text, tape, settings, and the output space with its bytes before the call.
#[derive(Clone, Debug, PartialEq)]
pub struct Case {
    pub text: Vec<u8>,
    pub tape: Vec<u8>,
    pub width: u64,
    pub case: u64,
    pub space: Vec<u8>,
}

/// An answer's two numbers: 0 and a length, or a refusal and its place.
#[derive(Clone, Copy, Debug, PartialEq)]
pub struct Answer {
    pub number: u64,
    pub second: u64,
}

/// What the call answers, and the output space afterwards.
#[derive(Clone, Debug, PartialEq)]
pub struct Answered {
    pub laid_out: Answer,
    pub space: Vec<u8>,
}

pub const MOST_WIDTH: u64 = 16;

pub fn answer(case: &Case) -> Answered {
    match formatted(case) {
        Ok(output) => accepted(&output, &case.space),
        Err(refusal) => Answered { laid_out: refusal, space: case.space.clone() },
    }
}

/// What the call answers in an output space of 0 bytes, which is what documents 00 and 01 call measuring (E5).
pub fn in_no_space(case: &Case) -> Answer {
    answer(&Case { space: Vec::new(), ..case.clone() }).laid_out
}

/// What `format` returns, or the refusal, 13 aside.
pub fn formatted(case: &Case) -> Result<String, Answer> {
    let (text, root) = read(case)?;
    let width = usize::try_from(case.width).expect("1 was tried");
    Ok(source::format(&root, width, case.case == 1, text))
}

/// The tree of an accepted input, or the first refusal, 13 aside.
pub fn accepted_tree(case: &Case) -> Result<Node, Answer> {
    read(case).map(|(_, root)| root)
}

/// The text and the tree of an accepted input, or the first refusal, 13 aside.
pub fn read(case: &Case) -> Result<(&str, Node), Answer> {
    if case.width > MOST_WIDTH {
        return refused(1, 0);
    }
    if case.case > 1 {
        return refused(2, 0);
    }
    if case.text.len() > MOST_BYTES {
        return refused(3, 0);
    }
    let text = text::well_formed(&case.text).or_else(|place| refused(4, place))?;
    if case.tape.len() > MOST_BYTES {
        return refused(5, 0);
    }
    let root = tape::read(&case.tape, text).or_else(|fault| refused(fault.number, fault.place))?;
    Ok((text, root))
}

fn refused<T>(number: u64, place: usize) -> Result<T, Answer> {
    Err(Answer { number, second: place as u64 })
}

fn accepted(output: &str, space: &[u8]) -> Answered {
    let needed = output.len();
    let laid_out = Answer { number: 0, second: needed as u64 };
    let mut space = space.to_vec();
    let Some(first) = space.get_mut(..needed) else {
        return Answered { laid_out: Answer { number: 13, ..laid_out }, space };
    };
    first.copy_from_slice(output.as_bytes());
    Answered { laid_out, space }
}
