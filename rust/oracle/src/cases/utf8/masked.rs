//! Pairs under the masking rule with characters of several bytes: other characters in as many bytes, or a refused tape with any two texts.

use super::super::masked::{maskable_call, pair};
use super::super::{damaged, with_space};
use super::{characters, in_bare_words};
use crate::answers::{accepted_tree, Answer, Case};
use crate::edit::{span_at, span_commands};
use crate::masking::{Held, Pair};
use crate::random::Random;
use crate::text::accepted;
use std::collections::BTreeSet;
use std::ops::Range;

pub fn make(random: &mut Random) -> Pair {
    if random.percent(20) {
        refused(random)
    } else {
        masked(random)
    }
}

/// A pair that meets all conditions; where no place may differ, its texts are equal.
fn masked(random: &mut Random) -> Pair {
    let (case, held) = maskable_call(random, super::make, maskable_runs);
    let mut second = case.text.clone();
    let share = [30, 60, 100][random.below(3)];
    for run in maskable_runs(&case, &held) {
        if random.percent(share) {
            let length = run.len();
            second[run].copy_from_slice(characters::of_bytes(length, random).as_bytes());
        }
    }
    pair(with_space(case, random), second)
}

/// The longest runs of characters that may differ as a whole: in them, no span starts or ends.
fn maskable_runs(case: &Case, held: &Held) -> Vec<Range<usize>> {
    let bounds = bounds(case);
    let text = accepted(&case.text);
    let mut runs: Vec<Range<usize>> = Vec::new();
    for (start, character) in text.char_indices() {
        let end = start + character.len_utf8();
        if character == '\n' || !held.breaches_at(text, start).is_empty() {
            continue;
        }
        match runs.last_mut() {
            Some(run) if run.end == start && !bounds.contains(&start) => run.end = end,
            _ => runs.push(start..end),
        }
    }
    runs
}

/// The places where the tape's spans start and end.
fn bounds(case: &Case) -> BTreeSet<usize> {
    let spans = span_commands(&case.tape).into_iter().map(|place| span_at(&case.tape, place));
    spans.flat_map(|(start, end)| [start as usize, end as usize]).collect()
}

/// A call that is refused, but not for its characters, and any second text of the same length that is not either.
fn refused(random: &mut Random) -> Pair {
    let case = refused_call(random);
    let mut second = case.clone();
    second.text = second_text(&case, random);
    if is_refused_for_characters(&second) {
        second.text = case.text.clone();
    }
    pair(with_space(case, random), second.text)
}

fn refused_call(random: &mut Random) -> Case {
    loop {
        let mut case = super::make(random);
        damaged::damage(&mut case, random);
        if accepted_tree(&case).is_ok() {
            case.tape.push(0);
        }
        if !is_refused_for_characters(&case) {
            return case;
        }
    }
}

fn is_refused_for_characters(case: &Case) -> bool {
    accepted_tree(case).is_err_and(|Answer { number, .. }| [4, 15, 16].contains(&number))
}

/// Any characters between the places where spans start and end; ASCII in bare words.
fn second_text(case: &Case, random: &mut Random) -> Vec<u8> {
    let kept = in_bare_words(case);
    let bounds = bounds(case);
    let mut text = Vec::new();
    while text.len() < case.text.len() {
        let start = text.len();
        let end = bounds.range(start + 1..).next().map_or(case.text.len(), |end| case.text.len().min(*end));
        let part = match kept[start..end].contains(&true) {
            true => "x".repeat(end - start),
            false => characters::of_bytes(end - start, random),
        };
        text.extend(part.bytes());
    }
    text
}
