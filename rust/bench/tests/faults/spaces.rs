//! Spaces that are wrong afterwards.

use super::{answered, count, Fault};
use oracle::map::{laid_out, MapCase, Mapped};

pub const SPACES: [(&str, Fault); 12] = [
    ("a byte written on 13", Fault::Given(|_, given| write_byte(given, |number| number == 13))),
    ("a number written on 13", Fault::Given(|_, given| write_number(given, |number| number == 13))),
    ("a byte written on 17", Fault::Given(|_, given| write_byte(given, |number| number == 17))),
    ("a number written on 17", Fault::Given(|_, given| write_number(given, |number| number == 17))),
    ("a byte written on another refusal", Fault::Given(|_, given| write_byte(given, is_other_refusal))),
    ("a number written on another refusal", Fault::Given(|_, given| write_number(given, is_other_refusal))),
    ("a byte past the last changed", Fault::Given(byte_past_the_last)),
    ("a number past the last changed", Fault::Given(number_past_the_last)),
    ("the last byte not written", Fault::Given(last_byte_left)),
    ("the last number not written", Fault::Given(last_number_left)),
    ("0 and 0 not written", Fault::Given(zeros_left)),
    ("as much of the map as there is room for in place of 17", Fault::Given(part_of_the_map)),
];

fn is_other_refusal(number: u64) -> bool {
    ![0, 13, 17].contains(&number)
}

/// Writes the last byte of the space where the answer is such.
fn write_byte(given: &mut Mapped, is_due: fn(u64) -> bool) {
    if let Some(last) = given.space.last_mut().filter(|_| is_due(given.answer.number)) {
        *last = b' ';
    }
}

/// Writes the last number of the map space where the answer is such.
fn write_number(given: &mut Mapped, is_due: fn(u64) -> bool) {
    if let Some(last) = given.map.last_mut().filter(|_| is_due(given.answer.number)) {
        *last = 0;
    }
}

fn byte_past_the_last(_asked: &MapCase, given: &mut Mapped) {
    let length = given.answer.second as usize;
    if given.answer.number == 0 && given.space.len() > length {
        given.space[length] = 0;
    }
}

fn number_past_the_last(asked: &MapCase, given: &mut Mapped) {
    if given.answer.number == 0 && given.map.len() > count(asked) {
        given.map[count(asked)] = 0;
    }
}

fn last_byte_left(asked: &MapCase, given: &mut Mapped) {
    if given.answer.number == 0 && given.answer.second > 0 {
        let last = given.answer.second as usize - 1;
        given.space[last] = asked.call.space[last];
    }
}

fn last_number_left(asked: &MapCase, given: &mut Mapped) {
    if given.answer.number == 0 && count(asked) > 0 {
        let last = count(asked) - 1;
        given.map[last] = asked.map[last];
    }
}

fn zeros_left(asked: &MapCase, given: &mut Mapped) {
    if given.answer.number == 0 {
        let is_zero = |place: &usize| given.map[*place] == 0;
        let zeros: Vec<usize> = (0..count(asked)).filter(is_zero).collect();
        zeros.into_iter().for_each(|place| given.map[place] = asked.map[place]);
    }
}

fn part_of_the_map(asked: &MapCase, given: &mut Mapped) {
    if given.answer.number == 17 {
        let layout = laid_out(&asked.call).expect("17 is the last refusal");
        let length = layout.output.len();
        given.answer = answered(0, length);
        given.space[..length].copy_from_slice(layout.output.as_bytes());
        given.map.copy_from_slice(&layout.numbers()[..asked.map.len()]);
    }
}
