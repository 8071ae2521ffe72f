//! Wrong answers; the spaces are right.

use super::{answered, count, Fault};
use oracle::map::{MapCase, Mapped};

pub const ANSWERS: [(&str, Fault); 7] = [
    ("17 before 13", Fault::Given(seventeen_before_thirteen)),
    ("13 where the output space is as long as needed", Fault::Given(thirteen_too_early)),
    ("17 where the map space is as long as needed", Fault::Given(seventeen_too_early)),
    ("17 with the count of tokens", Fault::Given(|_, given| of_number(given, 17, |second| second / 2))),
    ("17 with one number less", Fault::Given(|_, given| of_number(given, 17, |second| second - 1))),
    ("13 with one byte more", Fault::Given(|_, given| of_number(given, 13, |second| second + 1))),
    ("0 with the count of numbers", Fault::Given(zero_with_numbers)),
];

fn seventeen_before_thirteen(asked: &MapCase, given: &mut Mapped) {
    if given.answer.number == 13 && asked.map.len() < count(asked) {
        given.answer = answered(17, count(asked));
    }
}

fn thirteen_too_early(asked: &MapCase, given: &mut Mapped) {
    let length = asked.call.space.len();
    if given.answer == answered(0, length) {
        *given = refused(asked, 13, length);
    }
}

fn seventeen_too_early(asked: &MapCase, given: &mut Mapped) {
    if given.answer.number == 0 && asked.map.len() == count(asked) {
        *given = refused(asked, 17, asked.map.len());
    }
}

/// A refusal with both spaces as they were.
fn refused(asked: &MapCase, number: u64, second: usize) -> Mapped {
    Mapped { answer: answered(number, second), space: asked.call.space.clone(), map: asked.map.clone() }
}

/// Changes the second number beside this first one.
fn of_number(given: &mut Mapped, number: u64, second: fn(u64) -> u64) {
    if given.answer.number == number {
        given.answer.second = second(given.answer.second);
    }
}

fn zero_with_numbers(asked: &MapCase, given: &mut Mapped) {
    if given.answer.number == 0 {
        given.answer = answered(0, count(asked));
    }
}
