//! The port answers as the oracle does, and leaves the output space as it says; and it names one length whatever the space.

mod cases;

use bench::compare::answered;
use cases::agree;
use oracle::answers::Case;
use oracle::cases::{call, Class};

const SEED: u64 = 20;

#[test]
fn queries_of_a_parser() {
    agree("queries_of_a_parser", SEED, Class::Parser, 40_000);
}

#[test]
fn wild_trees() {
    agree("wild_trees", SEED, Class::Wild, 50_000);
}

#[test]
fn damaged_calls() {
    agree("damaged_calls", SEED, Class::Damaged, 60_000);
}

#[test]
fn masked_pairs() {
    agree("masked_pairs", SEED, Class::Masked, 10_000);
}

#[test]
fn limits() {
    agree("limits", SEED, Class::Limits, 48);
}

#[test]
fn small_trees() {
    agree("small_trees", SEED, Class::Small, 50_000);
}

#[test]
fn characters() {
    agree("characters", SEED, Class::Utf8, 20_000);
}

#[test]
fn characters_in_turn() {
    agree("characters_in_turn", SEED, Class::Utf8Small, 30_000);
}

#[test]
fn damaged_calls_of_characters() {
    agree("damaged_calls_of_characters", SEED, Class::Utf8Damaged, 30_000);
}

#[test]
fn masked_pairs_of_characters() {
    agree("masked_pairs_of_characters", SEED, Class::Utf8Masked, 6_000);
}

#[test]
fn limits_of_characters() {
    agree("limits_of_characters", SEED, Class::Utf8Limits, 45);
}

/// The port's answer in a space of so many bytes.
fn in_bytes(case: &Case, length: u64) -> (u64, u64) {
    let case = Case { space: vec![0xFF; length as usize], ..case.clone() };
    let laid_out = answered(&case).expect("the margins are untouched").laid_out;
    (laid_out.number, laid_out.second)
}

/// E5, of the port alone: in every space up to five bytes more than are needed, the answer names that length, with 13 where the space is
/// below it. Says how many are needed.
fn one_length(class: Class, index: u64) -> u64 {
    let case = call(SEED, class, index);
    let (_, needed) = in_bytes(&case, 0);
    for length in 0..=needed + 5 {
        let number = if length < needed { 13 } else { 0 };
        assert_eq!(in_bytes(&case, length), (number, needed), "class {class:?}, index {index}, {length} bytes");
    }
    needed
}

#[test]
fn one_length_whatever_the_space() {
    if !oracle::source::at_hand_for("one_length_whatever_the_space") {
        return;
    }
    let classes = [Class::Small, Class::Utf8Small].into_iter();
    let needed: Vec<u64> = classes.flat_map(|class| (0..4_000).map(move |index| one_length(class, index))).collect();
    let (calls, empty) =
        (needed.iter().map(|needed| needed + 6).sum::<u64>(), needed.iter().filter(|needed| **needed == 0).count());
    assert!(calls > 50_000 && empty > 50, "{calls} calls, {empty} layouts of 0 bytes");
}
