//! The masking rule on generated pairs, and for each of its conditions a smallest pair that needs it or shows it is not needed.

mod common;

use oracle::answers::accepted_tree;
use oracle::cases::{make, Class, Made};
use oracle::kinds;
use oracle::masking::{breaches, claim, Breach, Held, Pair};
use oracle::tape::{push_close, push_open, push_token};
use oracle::text::{accepted, WHITE_SPACE};
use std::collections::BTreeSet;

const SEED: u64 = 20_241_115;
const PAIRS: u64 = 3_000;

fn generated(class: Class, index: u64) -> Pair {
    match make(SEED, class, index) {
        Made::Pair(pair) => pair,
        _ => panic!("{class:?} makes no pairs"),
    }
}

fn masked(index: u64) -> Pair {
    generated(Class::Masked, index)
}

fn utf8_masked(index: u64) -> Pair {
    generated(Class::Utf8Masked, index)
}

/// A root of one kind over no byte with these children: a kind, whether it is a token, and a span.
fn tree(root: &str, children: &[(&str, bool, u32, u32)]) -> Vec<u8> {
    let mut tape = Vec::new();
    push_open(&mut tape, kinds::number(root), 0, 0);
    for (kind, is_token, start, end) in children {
        if *is_token {
            push_token(&mut tape, kinds::number(kind), *start, *end);
        } else {
            push_open(&mut tape, kinds::number(kind), *start, *end);
            push_close(&mut tape);
        }
    }
    push_close(&mut tape);
    tape
}

fn pair(first: &[u8], second: &[u8], tape: Vec<u8>) -> Pair {
    Pair { texts: [first.to_vec(), second.to_vec()], tape, width: 4, case: 1, space: vec![0; 9] }
}

/// Checks that a pair misses one condition alone, and that the claim fails.
fn assert_needed(pair: Pair, condition: Breach) {
    assert_all_needed(pair, &[condition]);
}

/// Checks that a pair misses these conditions, which cannot be missed alone, and that the claim fails.
fn assert_all_needed(pair: Pair, conditions: &[Breach]) {
    assert_eq!(breaches(&pair), conditions);
    assert!(claim(&pair).is_err(), "the claim holds for {pair:?}");
}

/// Newlines are let be: the claim needs no condition on them, but for the lines.
#[test]
fn the_claim_holds_for_generated_pairs_of_ascii() {
    needs_source!();
    for index in 0..PAIRS {
        let pair = masked(index);
        let breaches: Vec<Breach> = breaches(&pair).into_iter().filter(|breach| *breach != Breach::Newline).collect();
        assert_eq!(breaches, [], "conditions of pair {index}");
        assert_eq!(claim(&pair), Ok(()), "claim of pair {index}");
    }
}

#[test]
fn the_claim_holds_for_generated_pairs_of_characters() {
    needs_source!();
    for index in 0..PAIRS {
        let pair = utf8_masked(index);
        assert_eq!(breaches(&pair), [], "conditions of pair {index}");
        assert_eq!(claim(&pair), Ok(()), "claim of pair {index}");
    }
}

#[test]
fn many_generated_pairs_do_differ() {
    needs_source!();
    let differ = |pair: &Pair| pair.texts[0] != pair.texts[1];
    for pairs in [masked, utf8_masked] {
        let count = (0..PAIRS).map(pairs).filter(differ).count();
        assert!(count > PAIRS as usize / 2, "only {count} pairs differ");
    }
}

/// How long the characters are from the first place where the texts differ up to the next bound that they share.
fn lengths(pair: &Pair) -> Option<[Vec<usize>; 2]> {
    let [first, second] = [0, 1].map(|which| accepted(&pair.texts[which]));
    let start = (0..first.len()).find(|place| first.as_bytes()[*place] != second.as_bytes()[*place])?;
    let shared = |place: &usize| first.is_char_boundary(*place) && second.is_char_boundary(*place);
    let start = (0..=start).rev().find(shared)?;
    let end = (start + 1..=first.len()).find(shared)?;
    Some([first, second].map(|text| text[start..end].chars().map(char::len_utf8).collect()))
}

#[test]
fn generated_pairs_have_characters_of_other_lengths_at_one_place() {
    needs_source!();
    let accepted = |pair: &Pair| accepted_tree(&pair.case(0)).is_ok();
    let seen: BTreeSet<[Vec<usize>; 2]> =
        (0..PAIRS).map(utf8_masked).filter(accepted).filter_map(|pair| lengths(&pair)).collect();
    for length in 1..=4 {
        assert!(seen.contains(&[vec![length], vec![length]]), "{length} bytes for {length}");
    }
    for (one, other) in [(vec![2, 2], vec![4]), (vec![4], vec![2, 2]), (vec![3], vec![1, 2]), (vec![1, 1], vec![2])] {
        assert!(seen.contains(&[one.clone(), other.clone()]), "{other:?} for {one:?}");
    }
}

#[test]
fn generated_pairs_are_refused_in_every_way_but_for_their_characters() {
    needs_source!();
    let numbers: BTreeSet<u64> = (0..PAIRS)
        .filter_map(|index| accepted_tree(&utf8_masked(index).case(0)).err())
        .map(|answer| answer.number)
        .collect();
    assert_eq!(numbers.into_iter().collect::<Vec<_>>(), [1, 2, 6, 7, 8, 9, 10, 11, 12]);
}

#[test]
fn the_claim_holds_in_every_output_space() {
    needs_source!();
    for index in 0..200 {
        for length in [0, 1, 20, 5_000] {
            for pair in [masked(index), utf8_masked(index)] {
                let pair = Pair { space: vec![0x5A; length], ..pair };
                assert_eq!(claim(&pair), Ok(()), "claim of pair {index}");
            }
        }
    }
}

#[test]
fn texts_of_two_lengths_break_the_claim() {
    needs_source!();
    let tape = tree("File", &[("StringToken", true, 0, 2)]);
    assert_needed(pair(b"''", b"'", tape), Breach::LengthsDiffer);
}

#[test]
fn a_text_that_4_refuses_breaks_the_claim() {
    needs_source!();
    let tape = tree("File", &[("StringToken", true, 0, 3)]);
    assert_needed(pair(b"'a'", b"'\x80'", tape), Breach::TextRefused);
}

#[test]
fn a_text_that_15_refuses_breaks_the_claim() {
    needs_source!();
    let tape = tree("File", &[("StringToken", true, 0, 4), ("File", false, 2, 2)]);
    assert_needed(pair(b"'aa'", "'é'".as_bytes(), tape), Breach::TextRefused);
}

#[test]
fn a_text_that_16_refuses_breaks_the_claim() {
    needs_source!();
    let tape = tree("File", &[("BareWord", true, 0, 2)]);
    assert_needed(pair(b"aa", "é".as_bytes(), tape), Breach::TextRefused);
}

#[test]
fn two_characters_for_one_keep_the_claim() {
    needs_source!();
    for (first, second) in [("'éé'", "'😀'"), ("`€ab`", "`aж\u{85}`"), ("'\u{2003}a'", "'\u{85}ß'")] {
        let tape = tree("File", &[("StringToken", true, 0, first.len() as u32)]);
        let pair = pair(first.as_bytes(), second.as_bytes(), tape);
        assert_eq!(breaches(&pair), [], "{first} and {second}");
        assert_eq!(claim(&pair), Ok(()), "{first} and {second}");
    }
}

/// `à` ends in the byte A0, as the white space U+00A0 does.
#[test]
fn a_byte_of_the_last_character_breaks_the_claim() {
    needs_source!();
    let tape = tree("File", &[("StringToken", true, 0, 3)]);
    assert_all_needed(pair("'à".as_bytes(), "'\u{A0}".as_bytes(), tape), &[Breach::NotInside, Breach::EndsInWhite]);
}

#[test]
fn a_byte_of_the_first_or_last_character_is_not_inside() {
    needs_source!();
    for (first, second) in [("éa'", "èa'"), ("'aé", "'aè"), ("é", "è")] {
        let tape = tree("File", &[("StringToken", true, 0, first.len() as u32)]);
        assert_eq!(breaches(&pair(first.as_bytes(), second.as_bytes(), tape)), [Breach::NotInside], "{first}");
    }
}

#[test]
fn a_word_over_the_place_breaks_the_claim() {
    needs_source!();
    let tape = tree("File", &[("StringToken", true, 0, 3), ("BareWord", true, 0, 2)]);
    assert_needed(pair(b"aa'", b"as'", tape), Breach::NotQuoted);
}

#[test]
fn white_space_over_the_place_breaks_the_claim() {
    needs_source!();
    let children = [("StringToken", true, 0, 3), ("Whitespace", true, 1, 2), ("Comment", true, 0, 1)];
    assert_all_needed(pair(b"' '", b"'\n'", tree("File", &children)), &[Breach::Newline, Breach::NotQuoted]);
}

#[test]
fn a_comment_over_the_place_breaks_the_claim() {
    needs_source!();
    let children = [("StringToken", true, 0, 3), ("Comment", true, 0, 2), ("Number", true, 2, 3)];
    assert_needed(pair(b"-a'", b"--'", tree("File", &children)), Breach::NotQuoted);
}

#[test]
fn a_token_not_quoted_that_ends_in_the_place_breaks_the_claim() {
    needs_source!();
    let children = [("StringToken", true, 0, 3), ("Number", true, 0, 2)];
    assert_needed(pair(b"'a'", b"' '", tree("File", &children)), Breach::NotQuoted);
}

#[test]
fn a_copied_node_over_the_place_breaks_the_claim() {
    needs_source!();
    let children = [("StringToken", true, 0, 3), ("Error", false, 0, 2), ("Comment", true, 2, 3)];
    assert_all_needed(pair(b"'a'", b"'\n'", tree("QueryList", &children)), &[Breach::Newline, Breach::Copied]);
}

#[test]
fn a_quoted_token_that_ends_in_white_space_breaks_the_claim() {
    needs_source!();
    let tape = tree("File", &[("StringToken", true, 0, 3)]);
    assert_needed(pair(b"'a ", b"'  ", tape), Breach::EndsInWhite);
    for white in WHITE_SPACE {
        let tape = tree("File", &[("StringToken", true, 0, 2 + white.len_utf8() as u32)]);
        let [first, second] = ["'a", "' "].map(|front| format!("{front}{white}").into_bytes());
        assert_needed(pair(&first, &second, tape), Breach::EndsInWhite);
    }
}

#[test]
fn a_quoted_token_that_holds_no_differing_byte_may_end_in_white_space() {
    needs_source!();
    let tape = tree("File", &[("StringToken", true, 0, 3), ("StringToken", true, 3, 5)]);
    let pair = pair(b"'a'' ", b"'b'' ", tape);
    assert_eq!(breaches(&pair), []);
    assert_eq!(claim(&pair), Ok(()));
}

#[test]
fn an_empty_quoted_token_does_not_end_in_white_space() {
    needs_source!();
    let tape = tree("File", &[("StringToken", true, 1, 1), ("StringToken", true, 0, 3)]);
    let pair = pair(b" a'", b" b'", tape);
    assert_eq!(breaches(&pair), []);
    assert_eq!(claim(&pair), Ok(()));
}

#[test]
fn a_place_strictly_inside_all_but_one_token_is_not_inside() {
    needs_source!();
    let tape = tree("File", &[("StringToken", true, 0, 3), ("QuotedIdentifier", true, 1, 3)]);
    assert_eq!(breaches(&pair(b"'a'", b"'b'", tape)), [Breach::NotInside]);
}

#[test]
fn below_a_copied_node_another_copied_node_still_counts() {
    needs_source!();
    let mut tape = Vec::new();
    push_open(&mut tape, kinds::number("Error"), 0, 0);
    push_open(&mut tape, kinds::number("Error"), 0, 3);
    push_token(&mut tape, kinds::number("StringToken"), 0, 3);
    push_close(&mut tape);
    push_close(&mut tape);
    let pair = pair(b"'a'", b"'b'", tape);
    assert_eq!(breaches(&pair), [Breach::Copied]);
    assert_eq!(claim(&pair), Ok(()), "though the walk never copies it");
}

/// Places in no token and no copied node are never read, and a quoted token's edges count only when white.
#[test]
fn the_claim_needs_neither_some_token_nor_strictly_inside() {
    needs_source!();
    let mut loosened = 0;
    for index in 0..PAIRS {
        let mut pair = masked(index);
        loosen(&mut pair);
        let breaches: Vec<Breach> = breaches(&pair).into_iter().filter(|breach| *breach != Breach::Newline).collect();
        if breaches.iter().all(is_not_needed) {
            loosened += usize::from(!breaches.is_empty());
            assert_eq!(claim(&pair), Ok(()), "claim of pair {index}");
        }
    }
    assert!(loosened > 500, "only {loosened} pairs were loosened");
}

#[test]
fn newlines_inside_quotes_move_lines_but_keep_the_length() {
    needs_source!();
    let tape = tree("File", &[("StringToken", true, 0, 3)]);
    let pair = pair(b"'a'", b"'\n'", tape);
    assert_eq!(breaches(&pair), [Breach::Newline]);
    assert_eq!(claim(&pair), Ok(()));
}

fn is_not_needed(breach: &Breach) -> bool {
    matches!(breach, Breach::InNoToken | Breach::NotInside)
}

/// Changes in the second text every place that misses no condition but those two, to a letter that differs.
fn loosen(pair: &mut Pair) {
    let Ok(root) = accepted_tree(&pair.case(0)) else { return };
    let held = Held::of(&root);
    for place in 0..pair.texts[1].len() {
        let breaches = held.breaches_at(accepted(&pair.texts[0]), place);
        if !breaches.is_empty() && breaches.iter().all(is_not_needed) {
            pair.texts[1][place] = if pair.texts[0][place] == b'z' { b'y' } else { b'z' };
        }
    }
}
