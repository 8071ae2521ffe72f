//! The map on generated calls: held to a search of the output, to the masking rule, and to what the classes are for.

mod common;

use oracle::answers::{accepted_tree, Case};
use oracle::builder::Builder;
use oracle::cases::{make, map_call, Class, Made};
use oracle::kinds;
use oracle::map::{self, answer, claim, laid_out, MapCase, MapPair};
use oracle::masking::{self, breaches, is_copied, Breach, Pair};
use oracle::tape::{command_places, push_close, push_open, push_token, Child, Node, Token, TOKEN};
use oracle::text::{accepted, is_white_space};
use std::collections::{BTreeMap, BTreeSet};

const SEED: u64 = 16;

fn tree(call: &Case) -> Node {
    accepted_tree(call).expect("an accepted call")
}

fn good_calls(count: u64) -> impl Iterator<Item = Case> {
    (0..count).map(|index| map_call(SEED, Class::Map, index).call)
}

/// A token with the kind of its node, and whether a node copied as typed is above it.
struct Met<'t> {
    token: &'t Token,
    parent: u16,
    is_below_a_copy: bool,
}

fn met(node: &Node, is_below_a_copy: bool) -> Vec<Met<'_>> {
    let is_below_a_copy = is_below_a_copy || is_copied(node);
    let mut all = Vec::new();
    for child in &node.children {
        match child {
            Child::Token(token) => all.push(Met { token, parent: node.kind, is_below_a_copy }),
            Child::Node(node) => all.extend(met(node, is_below_a_copy)),
        }
    }
    all
}

fn is_kind(kind: u16, name: &str) -> bool {
    kind == kinds::number(name)
}

/// Whether no routine writes a token: white space, and a semicolon directly under SelectStatement.
fn is_left_out(met: &Met) -> bool {
    let is_semicolon = is_kind(met.token.kind, "Semicolon") && is_kind(met.parent, "SelectStatement");
    is_kind(met.token.kind, "Whitespace") || is_semicolon
}

/// Whether a token gets 0 and 0 whatever is trimmed.
fn is_never_placed(met: &Met) -> bool {
    met.token.start == met.token.end || met.is_below_a_copy || is_left_out(met)
}

fn sign(kind: u16) -> Option<u8> {
    let signs = [
        ("Comma", b','),
        ("Semicolon", b';'),
        ("Colon", b':'),
        ("Minus", b'-'),
        ("OpeningRoundBracket", b'('),
        ("ClosingRoundBracket", b')'),
        ("OpeningSquareBracket", b'['),
        ("ClosingSquareBracket", b']'),
        ("OpeningCurlyBrace", b'{'),
        ("ClosingCurlyBrace", b'}'),
    ];
    signs.iter().find(|(name, _)| is_kind(kind, name)).map(|(_, sign)| *sign)
}

// Marked texts: the map by search alone

/// The same tree over a text in which every token but white space has a text that no other has.
fn marked(call: &Case) -> Case {
    let (text, tape) = Builder::build(|b| mark(b, &tree(call), &call.text, &mut 0));
    Case { text, tape, space: Vec::new(), ..call.clone() }
}

fn mark(b: &mut Builder, node: &Node, text: &[u8], number: &mut usize) {
    b.node(kinds::name(node.kind), |b| {
        for child in &node.children {
            match child {
                Child::Node(node) => mark(b, node, text, number),
                Child::Token(token) => {
                    let old = accepted(&text[token.start as usize..token.end as usize]);
                    b.token(kinds::name(token.kind), &marked_text(token.kind, old, *number));
                    *number += 1;
                }
            }
        }
    });
}

fn marked_text(kind: u16, old: &str, number: usize) -> String {
    match kinds::name(kind) {
        "Whitespace" => old.chars().map(|character| if character == '\n' { '\n' } else { ' ' }).collect(),
        "Comment" if old.starts_with("--") => format!("--{}", the_mark(number)),
        "StringToken" => format!("'{}\n'", the_mark(number)),
        _ => the_mark(number),
    }
}

/// No mark is part of another, and none is a keyword.
fn the_mark(number: usize) -> String {
    format!("q{number}z")
}

/// Where each token of a marked call begins: a mark that stands in the output is its token's; every other byte that is no white space is
/// a sign, and belongs to the next token that is written and has no mark there.
fn found(call: &Case, output: &str) -> Vec<Option<usize>> {
    let root = tree(call);
    let lower = output.to_ascii_lowercase();
    let mut is_known: Vec<bool> = output.bytes().map(|byte| byte.is_ascii_whitespace()).collect();
    let mut places = Vec::new();
    let all = met(&root, false);
    for met in &all {
        let text = accepted(&call.text[met.token.start as usize..met.token.end as usize]).trim_end();
        let place = if is_kind(met.token.kind, "Whitespace") { None } else { lower.find(text) };
        if let Some(place) = place {
            is_known[place..place + text.len()].fill(true);
        }
        places.push(place.filter(|_| !met.is_below_a_copy));
    }
    let mut signs = (0..output.len()).filter(|place| !is_known[*place]);
    for (met, place) in all.iter().zip(&mut places) {
        if place.is_none() && !met.is_below_a_copy && !is_left_out(met) {
            *place = signs.next();
            let at = place.map(|place| output.as_bytes()[place]);
            assert!(at.is_some() && at == sign(met.token.kind), "{at:?} for {:?}", met.token);
        }
    }
    assert_eq!(signs.next(), None, "a sign that no token has");
    places
}

/// The line and column of a place, counted byte by byte.
fn counted(output: &str, place: Option<usize>) -> [u64; 2] {
    let Some(place) = place else { return [0, 0] };
    let (mut line, mut column) = (1, 1);
    for byte in &output.as_bytes()[..place] {
        (line, column) = if *byte == b'\n' { (line + 1, 1) } else { (line, column + 1) };
    }
    [line, column]
}

#[test]
fn the_map_of_a_marked_text_is_found_by_search() {
    needs_source!();
    let mut signs = 0;
    for (index, call) in good_calls(8_000).enumerate() {
        let call = marked(&call);
        let layout = laid_out(&call).expect("an accepted call");
        let places = found(&call, &layout.output);
        let expected: Vec<u64> = places.iter().flat_map(|place| counted(&layout.output, *place)).collect();
        assert_eq!(layout.numbers(), expected, "index {index}: {:?}", layout.output);
        let is_sign = |place: &usize| layout.output.as_bytes()[*place] != b'q';
        signs += places.iter().flatten().filter(|place| is_sign(place)).count();
    }
    assert!(signs > 5_000, "{signs} signs");
}

// Any texts

/// Whether the output has this text at a place, the case of ASCII letters aside; trimming may have cut its end.
fn stands_at(output: &str, place: usize, text: &str) -> bool {
    let rest = &output.as_bytes()[place..output.len() - 1];
    let kept = rest.len().min(text.len());
    let lost = &text.as_bytes()[kept..];
    rest[..kept].eq_ignore_ascii_case(&text.as_bytes()[..kept]) && accepted(lost).chars().all(is_white_space)
}

#[test]
fn at_a_token_s_place_stands_its_text_or_its_sign() {
    needs_source!();
    for (index, call) in good_calls(8_000).enumerate() {
        let (root, layout) = (tree(&call), laid_out(&call).expect("an accepted call"));
        let text = accepted(&call.text);
        for (met, place) in met(&root, false).iter().zip(&layout.places) {
            let own = &text[met.token.start as usize..met.token.end as usize];
            let is_never_placed = is_never_placed(met);
            let is_lost = own.chars().all(is_white_space);
            match place {
                Some(place) => {
                    let at = layout.output.as_bytes()[*place];
                    let stands = stands_at(&layout.output, *place, own) || sign(met.token.kind) == Some(at);
                    assert!(stands && !is_never_placed, "index {index}, {:?} at {place}", met.token);
                }
                None => assert!(is_never_placed || is_lost, "index {index}, {:?} is not placed", met.token),
            }
        }
    }
}

#[test]
fn places_rise_from_token_to_token() {
    needs_source!();
    for (index, call) in good_calls(8_000).enumerate() {
        let places: Vec<usize> = laid_out(&call).expect("an accepted call").places.into_iter().flatten().collect();
        assert!(places.windows(2).all(|two| two[0] < two[1]), "index {index}: {places:?}");
    }
}

/// A written token without a place comes after all that have one, and no place is that of the newline that `finish` adds.
#[test]
fn trimming_takes_tokens_at_the_end_alone() {
    needs_source!();
    let mut lost = 0;
    for (index, call) in good_calls(8_000).enumerate() {
        let (root, layout) = (tree(&call), laid_out(&call).expect("an accepted call"));
        let all = met(&root, false);
        let last = layout.places.iter().rposition(Option::is_some);
        for (number, met) in all.iter().enumerate().filter(|(_, met)| !is_never_placed(met)) {
            match layout.places[number] {
                Some(place) => assert!(place < layout.output.len() - 1, "index {index}, {:?}", met.token),
                None => {
                    lost += 1;
                    assert!(last.is_none_or(|last| last < number), "index {index}, {:?}", met.token);
                }
            }
        }
    }
    assert!(lost > 500, "{lost} tokens");
}

/// A token that shares no byte with another token or a copied node, and whose text the output has once, is where a search finds it.
#[test]
fn a_token_whose_text_stands_once_in_the_output_is_there() {
    needs_source!();
    let mut searched = 0;
    for (index, call) in good_calls(8_000).enumerate() {
        let (root, layout) = (tree(&call), laid_out(&call).expect("an accepted call"));
        let text = accepted(&call.text);
        let all = met(&root, false);
        let lower = layout.output.to_ascii_lowercase();
        let numbers = layout.numbers();
        for (number, met) in all.iter().enumerate().filter(|(_, met)| has_own_text(met, text) && is_alone(met, &all)) {
            let own = text[met.token.start as usize..met.token.end as usize].to_ascii_lowercase();
            if let [place] = occurrences(&lower, &own)[..] {
                searched += 1;
                assert_eq!(numbers[2 * number..2 * number + 2], counted(&lower, Some(place)), "index {index}, {own:?}");
            }
        }
    }
    assert!(searched > 20_000, "{searched} tokens");
}

/// The places where a part stands in a text; two of them may share bytes.
fn occurrences(text: &str, part: &str) -> Vec<usize> {
    (0..text.len()).filter(|place| text.as_bytes()[*place..].starts_with(part.as_bytes())).collect()
}

/// Whether every routine writes the token's text, and trimming leaves it whole.
fn has_own_text(met: &Met, text: &str) -> bool {
    let own = &text[met.token.start as usize..met.token.end as usize];
    let is_whole = own.chars().next_back().is_some_and(|last| !is_white_space(last));
    is_whole && !met.is_below_a_copy && !is_left_out(met) && sign(met.token.kind).is_none()
}

/// Whether no other token holds a byte of this one, and no text is copied as typed.
fn is_alone(met: &Met, all: &[Met]) -> bool {
    let apart = |other: &Met| other.token.end <= met.token.start || met.token.end <= other.token.start;
    let others = all.iter().filter(|other| !std::ptr::eq(other.token, met.token));
    all.iter().all(|other| !other.is_below_a_copy) && others.into_iter().all(apart)
}

// The masking rule

fn pairs(count: u64) -> impl Iterator<Item = MapPair> {
    (0..count).map(|index| match make(SEED, Class::MapMasked, index) {
        Made::MapPair(pair) => pair,
        _ => panic!("the class makes pairs"),
    })
}

#[test]
fn the_claim_of_the_map_holds_for_generated_pairs() {
    needs_source!();
    for (index, pair) in pairs(6_000).enumerate() {
        assert_eq!(breaches(&pair.calls), [], "conditions of pair {index}");
        assert_eq!(masking::claim(&pair.calls), Ok(()), "claim of pair {index}");
        assert_eq!(claim(&pair), Ok(()), "claim of the map of pair {index}");
    }
}

#[test]
fn many_generated_pairs_differ_and_are_mapped() {
    needs_source!();
    let is_mapped =
        |pair: &MapPair| pair.calls.texts[0] != pair.calls.texts[1] && answer(&pair.case(0)).answer.number == 0;
    let count = pairs(6_000).filter(is_mapped).count();
    assert!(count > 1_200, "only {count} pairs");
}

/// Two tokens without a blank between them: a quoted one that is masked, and a number after it.
fn quoted_then_number(first: &[u8], second: &[u8]) -> MapPair {
    let end = first.len() as u32 - 1;
    let mut tape = Vec::new();
    push_open(&mut tape, kinds::number("QualifiedName"), 0, 0);
    push_token(&mut tape, kinds::number("StringToken"), 0, end);
    push_token(&mut tape, kinds::number("Number"), end, end + 1);
    push_close(&mut tape);
    let texts = [first.to_vec(), second.to_vec()];
    MapPair { calls: Pair { texts, tape, width: 4, case: 1, space: vec![0; 9] }, map: vec![0; 4] }
}

/// Without the condition on newlines lines and columns differ.
#[test]
fn the_map_needs_the_condition_on_newlines() {
    needs_source!();
    let pair = quoted_then_number(b"'a'7", b"'\n'7");
    assert_eq!(breaches(&pair.calls), [Breach::Newline]);
    assert_eq!(masking::claim(&pair.calls), Ok(()));
    assert!(claim(&pair).is_err());
    assert_eq!([0, 1].map(|which| answer(&pair.case(which)).map), [vec![1, 1, 1, 4], vec![1, 1, 2, 2]]);
    assert_eq!(claim(&quoted_then_number(b"'a'7", b"'b'7")), Ok(()));
}

/// What still holds without it: each token begins at the same offset of both layouts, if at any, and so the same ones get 0 and 0.
#[test]
fn without_the_condition_on_newlines_offsets_are_alike() {
    needs_source!();
    let mut newlines = 0;
    for index in 0..4_000 {
        let Made::Pair(pair) = make(SEED, Class::Masked, index) else { panic!("the class makes pairs") };
        let [first, second] = [0, 1].map(|which| laid_out(&pair.case(which)).map(|layout| layout.places));
        assert_eq!(first, second, "pair {index}");
        newlines += u64::from(breaches(&pair).contains(&Breach::Newline));
    }
    assert!(newlines > 500, "{newlines} pairs with newlines");
}

// What the classes are for

fn answers_of(class: Class, count: u64) -> BTreeMap<u64, u64> {
    let mut counts = BTreeMap::new();
    for index in 0..count {
        *counts.entry(answer(&map_call(SEED, class, index)).answer.number).or_default() += 1;
    }
    counts
}

#[test]
fn good_map_calls_are_accepted_and_only_spaces_are_short() {
    needs_source!();
    let counts = answers_of(Class::Map, 4_000);
    assert_eq!(counts.keys().copied().collect::<Vec<_>>(), [0, 13, 17]);
    assert!(counts.values().all(|count| *count > 500), "{counts:?}");
}

#[test]
fn damaged_map_calls_meet_every_refusal_that_small_calls_can() {
    needs_source!();
    let counts = answers_of(Class::MapDamaged, 6_000);
    for number in [0, 1, 2, 4, 6, 7, 8, 9, 10, 11, 12, 13, 15, 16, 17] {
        assert!(counts.get(&number).is_some_and(|count| *count >= 20), "{number}: {counts:?}");
    }
}

#[test]
fn map_limits_meet_every_answer_of_the_sizes() {
    needs_source!();
    let counts = answers_of(Class::MapLimits, 180);
    for number in [0, 1, 2, 3, 5, 13, 17] {
        assert!(counts.contains_key(&number), "{number}: {counts:?}");
    }
}

/// Less or more than needed, in both spaces; none for an empty space that is short.
fn over(case: &MapCase) -> Option<[Option<i64>; 2]> {
    let layout = laid_out(&case.call).ok()?;
    let over = |length: usize, needed: usize| (length > 0 || needed == 0).then_some(length as i64 - needed as i64);
    Some([over(case.call.space.len(), layout.output.len()), over(case.map.len(), 2 * layout.places.len())])
}

#[test]
fn both_spaces_are_full_one_short_five_over_or_empty() {
    needs_source!();
    for (class, count) in [(Class::Map, 2_000), (Class::MapLimits, 360)] {
        let seen: BTreeSet<_> = (0..count).filter_map(|index| over(&map_call(SEED, class, index))).collect();
        for bytes in [None, Some(-1), Some(0), Some(5)] {
            for numbers in [None, Some(-1), Some(0), Some(5)] {
                assert!(seen.contains(&[bytes, numbers]), "{class:?}: {bytes:?} and {numbers:?}");
            }
        }
    }
}

#[test]
fn map_limits_hold_the_most_tokens_lines_and_columns() {
    needs_source!();
    let (mut numbers, mut lines, mut columns) = (0, 0, 0);
    for case in (0..36).map(|index| map_call(SEED, Class::MapLimits, index)) {
        let mapped = answer(&case);
        if let (0, Some(needed)) = (mapped.answer.number, map::needed(&case.call)) {
            numbers = needed.max(numbers);
            lines = mapped.map[..needed].iter().copied().step_by(2).max().unwrap_or(0).max(lines);
            columns = mapped.map[..needed].iter().copied().skip(1).step_by(2).max().unwrap_or(0).max(columns);
        }
    }
    // As many token commands as stand in a tape beside an open and a close; a text's length, and its first line or column.
    assert_eq!((numbers, lines, columns), (2 * ((262_144 - 12) / 11), 262_144, 262_144));
}

/// What the map tells apart, by name, for each token of a call.
fn features(call: &Case) -> Vec<&'static str> {
    let (root, layout) = (tree(call), laid_out(call).expect("an accepted call"));
    let mut features = Vec::new();
    let mut before: Option<&Token> = None;
    for (met, place) in met(&root, false).into_iter().zip(&layout.places) {
        let own = accepted(&call.text[met.token.start as usize..met.token.end as usize]);
        let is_white = !own.is_empty() && own.chars().all(is_white_space);
        let at = place.map(|place| char::from(layout.output.as_bytes()[place]));
        let is_sign = sign(met.token.kind).map(char::from) == at && at.is_some();
        let named = [
            ("sign over its own text", is_sign && own.chars().eq(at)),
            ("sign over other text", is_sign && !is_white && !own.starts_with(at.unwrap_or(' '))),
            ("sign over white text", is_sign && is_white),
            ("sign's kind with its text", sign(met.token.kind).is_some() && at.is_some() && !is_sign),
            ("empty sign", sign(met.token.kind).is_some() && own.is_empty()),
            ("empty", own.is_empty()),
            ("below a copy", met.is_below_a_copy),
            ("lost to trimming", is_white && place.is_none() && !met.is_below_a_copy && !is_left_out(&met)),
            ("white and placed", is_white && place.is_some() && !is_sign),
            ("left out", is_left_out(&met)),
            ("newline within", own.trim_end().contains('\n') && place.is_some()),
            ("beyond ASCII", !own.is_ascii() && place.is_some()),
            ("case changed", at.is_some_and(|at| own.starts_with(|first: char| first != at)) && !is_sign),
            (
                "span of the token before",
                !own.is_empty() && before.is_some_and(|before| before.start == met.token.start),
            ),
        ];
        features.extend(named.into_iter().filter_map(|(name, is_met)| is_met.then_some(name)));
        before = Some(met.token);
    }
    features
}

#[test]
fn good_map_calls_hold_all_that_the_map_tells_apart() {
    needs_source!();
    let mut counts: BTreeMap<&str, u64> = BTreeMap::new();
    for call in good_calls(4_000) {
        features(&call).into_iter().for_each(|feature| *counts.entry(feature).or_default() += 1);
    }
    assert_eq!(counts.len(), 14, "{counts:?}");
    assert!(counts.values().all(|count| *count >= 100), "{counts:?}");
}

#[test]
fn a_map_needs_two_numbers_for_each_token_command() {
    needs_source!();
    for call in good_calls(2_000) {
        let commands = command_places(&call.tape).into_iter().filter(|place| call.tape[*place] == TOKEN);
        let count = commands.count();
        assert_eq!(map::needed(&call), Some(2 * count));
        assert_eq!(laid_out(&call).expect("an accepted call").places.len(), count);
    }
}
