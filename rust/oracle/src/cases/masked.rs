//! Pairs under the masking rule: one tape and two texts that differ inside quoted tokens alone, or a refused tape.

use super::{damaged, some_call, with_space};
use crate::answers::{accepted_tree, Case};
use crate::masking::{Held, Pair};
use crate::random::Random;
use crate::text::{accepted, is_white_space};

pub fn make(random: &mut Random) -> Pair {
    if random.percent(15) {
        refused(random)
    } else {
        masked(random)
    }
}

/// A pair that meets all conditions but the one on newlines; where no place may differ, its texts are equal.
fn masked(random: &mut Random) -> Pair {
    let (case, held) = maskable_call(random, some_call, maskable_places);
    let mut second = case.text.clone();
    let share = [10, 50, 100][random.below(3)];
    for place in maskable_places(&case, &held) {
        if random.percent(share) {
            second[place] = any_byte(random);
        }
    }
    pair(with_space(case, random), second)
}

/// A good call in which no quoted token ends in white space, with something maskable in it, if one of five calls has it.
pub fn maskable_call<T>(
    random: &mut Random,
    make: fn(&mut Random) -> Case,
    maskable: fn(&Case, &Held) -> Vec<T>,
) -> (Case, Held) {
    let mut tries = 0;
    loop {
        let mut case = make(random);
        let held = Held::of(&accepted_tree(&case).expect("a good call"));
        tries += 1;
        if tries == 5 || !maskable(&case, &held).is_empty() {
            no_white_ends(&mut case.text, &held);
            return (case, held);
        }
    }
}

/// The places where the conditions let two texts differ.
fn maskable_places(case: &Case, held: &Held) -> Vec<usize> {
    let text = accepted(&case.text);
    (0..text.len()).filter(|place| held.breaches_at(text, *place).is_empty()).collect()
}

/// Puts another character of as many bytes where a quoted token would end in white space.
fn no_white_ends(text: &mut [u8], held: &Held) {
    for span in &held.quoted {
        let last = accepted(&text[span.clone()]).chars().next_back().filter(|last| is_white_space(*last));
        if let Some(length) = last.map(char::len_utf8) {
            text[span.end - length..span.end].copy_from_slice(["'", "×", "€"][length - 1].as_bytes());
        }
    }
}

fn any_byte(random: &mut Random) -> u8 {
    if random.percent(40) {
        b"\n '\"-*S\t"[random.below(8)]
    } else {
        random.below(128) as u8
    }
}

/// A damaged call and any second text of the same length. Both are ASCII.
fn refused(random: &mut Random) -> Pair {
    let mut case = some_call(random);
    damaged::damage(&mut case, random);
    case.text.iter_mut().for_each(|byte| *byte &= 127);
    if accepted_tree(&case).is_ok() {
        case.tape.push(0);
    }
    let second = case.text.iter().map(|_| any_byte(random)).collect();
    pair(with_space(case, random), second)
}

pub fn pair(case: Case, second: Vec<u8>) -> Pair {
    let Case { text, tape, width, case, space } = case;
    Pair { texts: [text, second], tape, width, case, space }
}
