//! The generators: a case depends on its three numbers alone, and each class holds what it is for.

mod common;

use oracle::answers::{answer, formatted, Case};
use oracle::cases::{call, make, Class, Made};
use oracle::edit::{kind_at, span_at, span_commands, text_at};
use oracle::job::printed;
use oracle::kinds::{self, BARE_WORD, TOKENS};
use oracle::map::MapCase;
use oracle::random::Random;
use oracle::tape::{command_places, CLOSE, MOST_BYTES, MOST_OPEN, OPEN, TOKEN};
use oracle::text::{accepted, first_ill_formed, is_white_space, table, WHITE_SPACE};
use std::collections::{BTreeMap, BTreeSet};

const SEED: u64 = 1;

fn job(index: u64) -> Vec<u8> {
    match make(SEED, Class::Jobs, index) {
        Made::Job(job) => job,
        _ => panic!("the class jobs makes jobs"),
    }
}

/// How often each answer of laying out occurs among the first cases of a class.
fn answers_of(class: Class, cases: u64) -> BTreeMap<u64, u64> {
    let mut counts = BTreeMap::new();
    for index in 0..cases {
        *counts.entry(answer(&call(SEED, class, index)).laid_out.number).or_default() += 1;
    }
    counts
}

#[test]
fn random_numbers_are_those_of_splitmix64() {
    let mut random = Random::from_state(0);
    let published = [0xE220_A839_7B1D_CDAF, 0x6E78_9E6A_A1B9_65F4, 0x06C4_5D18_8009_454F];
    assert_eq!(published.map(|_| random.next()), published);
}

#[test]
fn another_seed_class_or_index_gives_other_numbers() {
    let firsts: BTreeSet<u64> =
        [(1, 1, 1), (2, 1, 1), (1, 2, 1), (1, 1, 2)].iter().map(|(s, c, i)| Random::of(*s, *c, *i).next()).collect();
    assert_eq!(firsts.len(), 4);
}

#[test]
fn a_case_is_made_again_alike() {
    needs_source!();
    for index in 0..50 {
        for (name, class) in Class::ALL {
            let [one, again] = [0, 1].map(|_| bytes_of(make(SEED, class, index)));
            assert_eq!(one, again, "{name} {index}");
        }
    }
}

#[test]
fn good_calls_are_accepted_and_only_space_is_short() {
    needs_source!();
    for class in [Class::Parser, Class::Wild, Class::Small, Class::Utf8, Class::Utf8Small] {
        let counts = answers_of(class, 2_000);
        assert_eq!(counts.keys().copied().collect::<Vec<_>>(), [0, 13], "{class:?}");
        assert!(counts[&13] > 200, "{class:?}");
    }
}

#[test]
fn spaces_are_full_one_short_five_over_or_empty() {
    needs_source!();
    for class in [Class::Parser, Class::Utf8] {
        let mut seen = BTreeSet::new();
        for index in 0..2_000 {
            let case = call(SEED, class, index);
            let needed = answer(&case).laid_out.second as i64;
            seen.insert(if case.space.is_empty() { None } else { Some(case.space.len() as i64 - needed) });
        }
        assert_eq!(seen.into_iter().collect::<Vec<_>>(), [None, Some(-1), Some(0), Some(5)], "{class:?}");
    }
}

#[test]
fn wild_trees_reach_the_last_level() {
    needs_source!();
    let depth = |case: &Case| {
        let (mut open, mut most) = (0, 0);
        for place in oracle::tape::command_places(&case.tape) {
            match case.tape[place] {
                1 => open += 1,
                3 => open -= 1,
                _ => {}
            }
            most = open.max(most);
        }
        most
    };
    let deepest = (0..2_000).map(|index| depth(&call(SEED, Class::Wild, index))).max();
    assert_eq!(deepest, Some(MOST_OPEN));
}

#[test]
fn damaged_calls_meet_every_refusal_that_small_calls_can() {
    needs_source!();
    let counts = answers_of(Class::Damaged, 4_000);
    for number in [0, 1, 2, 4, 6, 7, 8, 9, 10, 11, 12, 13] {
        assert!(counts.get(&number).is_some_and(|count| *count >= 20), "{number}: {counts:?}");
    }
}

#[test]
fn damaged_calls_of_characters_meet_every_refusal_that_small_calls_can() {
    needs_source!();
    let counts = answers_of(Class::Utf8Damaged, 4_000);
    for number in [0, 1, 2, 4, 6, 7, 8, 9, 10, 11, 12, 13, 15, 16] {
        let least = if [4, 10, 15, 16].contains(&number) { 200 } else { 5 };
        assert!(counts.get(&number).is_some_and(|count| *count >= least), "{number}: {counts:?}");
    }
}

/// The answers that a command meets by itself, whatever comes before it: 10, 15 and 16, and 11 at the 65th open.
fn faults_of(case: &Case, place: usize, open: usize) -> BTreeSet<u64> {
    let (start, end) = span_at(&case.tape, place);
    let (is_node, length) = (case.tape[place] == OPEN, case.text.len() as u32);
    let text = accepted(&case.text);
    let inside = |place: u32| place < length && !text.is_char_boundary(place as usize);
    let is_bare_word = !is_node && kind_at(&case.tape, place) == BARE_WORD;
    let beyond = text_at(case, place).is_some_and(|text| !text.is_ascii());
    [
        (10, (start > end && !is_node) || (start <= end && end > length)),
        (11, is_node && open == MOST_OPEN),
        (15, (start <= end || !is_node) && (inside(start) || inside(end))),
        (16, is_bare_word && (beyond || (start <= end && end > length && !text.is_ascii()))),
    ]
    .into_iter()
    .filter_map(|(number, met)| met.then_some(number))
    .collect()
}

#[test]
fn the_order_of_10_15_16_and_11_is_seen() {
    needs_source!();
    let mut seen = BTreeSet::new();
    for index in 0..4_000 {
        let case = call(SEED, Class::Utf8Damaged, index);
        let refusal = answer(&case).laid_out;
        let place = refusal.second as usize;
        if [10, 11, 15, 16].contains(&refusal.number) {
            let before = command_places(&case.tape).into_iter().filter(|at| *at < place);
            let opens = before.clone().filter(|at| case.tape[*at] == OPEN).count();
            let closes = before.filter(|at| case.tape[*at] == CLOSE).count();
            seen.insert((refusal.number, faults_of(&case, place, opens - closes)));
        }
    }
    for (number, faults) in [(10, [10, 15]), (10, [10, 16]), (15, [15, 16]), (15, [11, 15])] {
        assert!(seen.contains(&(number, BTreeSet::from(faults))), "{number} of {faults:?}: {seen:?}");
    }
}

/// Each row broken at each byte: below its range, above it, and cut before it.
#[test]
fn every_row_of_the_table_is_broken_at_every_byte() {
    needs_source!();
    let mut seen = BTreeSet::new();
    for index in 0..20_000 {
        let case = call(SEED, Class::Utf8Damaged, index);
        if let Some(place) = first_ill_formed(&case.text) {
            seen.extend(breaks(&case.text[place..]));
        }
    }
    for (number, row) in table().iter().enumerate() {
        for at in 0..row.len() {
            for way in [Way::Below, Way::Above, Way::Cut] {
                // No byte is below 00, and a character cut before its first byte is none.
                let is_none = at == 0 && (way == Way::Cut || (number == 0 && way == Way::Below));
                assert!(is_none || seen.contains(&(number, at, way)), "row {number}, byte {at}, {way:?}");
            }
        }
    }
}

#[derive(Clone, Copy, Debug, PartialEq, Eq, PartialOrd, Ord)]
enum Way {
    Below,
    Above,
    Cut,
}

/// The rows that the bytes follow up to some byte, and how that one breaks them.
fn breaks(bytes: &[u8]) -> Vec<(usize, usize, Way)> {
    let mut found = Vec::new();
    for (number, row) in table().iter().enumerate() {
        let at = (0..row.len()).find(|at| !bytes.get(*at).is_some_and(|byte| (row[*at].0..=row[*at].1).contains(byte)));
        let Some(at) = at else { continue };
        found.push(match bytes.get(at) {
            None => (number, at, Way::Cut),
            Some(byte) if *byte < row[at].0 => (number, at, Way::Below),
            Some(_) => (number, at, Way::Above),
        });
    }
    found
}

#[test]
fn characters_of_every_length_stand_in_tokens_of_every_sort() {
    needs_source!();
    let mut seen = BTreeSet::new();
    for index in 0..3_000 {
        let case = call(SEED, Class::Utf8, index);
        for place in span_commands(&case.tape) {
            let kind = kinds::name(kind_at(&case.tape, place));
            let text = text_at(&case, place).map(accepted).unwrap_or_default();
            if case.tape[place] == TOKEN || kind == "Error" {
                seen.extend(text.chars().map(|character| (kind, character.len_utf8())));
            }
        }
    }
    for kind in TOKENS.into_iter().chain(["Error"]).filter(|kind| *kind != "BareWord") {
        assert!((1..=4).all(|length| seen.contains(&(kind, length))), "{kind}");
    }
    assert!(!seen.contains(&("BareWord", 2)));
}

#[test]
fn every_white_space_ends_tokens_of_every_kind_and_layouts() {
    needs_source!();
    let (mut ends, mut dropped) = (BTreeSet::new(), BTreeSet::new());
    for index in 0..40_000 {
        let case = call(SEED, Class::Utf8Small, index);
        let output = formatted(&case).expect("a good call");
        for place in span_commands(&case.tape) {
            let kind = kinds::name(kind_at(&case.tape, place));
            let last = text_at(&case, place).and_then(|text| accepted(text).chars().next_back());
            let Some(last) = last.filter(|last| is_white_space(*last)) else { continue };
            ends.insert((kind, last));
            // A root that is copied as typed shows what its layout loses.
            if place == 0 && kind == "Error" && !output.trim_end().ends_with(last) {
                dropped.insert(last);
            }
        }
    }
    for white in WHITE_SPACE {
        assert!(dropped.contains(&white), "{white:?} ends no copied node");
        for kind in TOKENS.into_iter().filter(|kind| *kind != "BareWord") {
            assert!(ends.contains(&(kind, white)), "{white:?} ends no {kind}");
        }
    }
}

#[test]
fn limits_meet_every_answer_of_the_sizes() {
    needs_source!();
    let counts = answers_of(Class::Limits, 240);
    for number in [0, 1, 2, 3, 4, 5, 11, 12, 13] {
        assert!(counts.contains_key(&number), "{number}: {counts:?}");
    }
    let counts = answers_of(Class::Utf8Limits, 75);
    for number in [0, 3, 4, 5, 13, 15, 16] {
        assert!(counts.contains_key(&number), "{number}: {counts:?}");
    }
}

#[test]
fn limits_hold_sizes_at_the_most_and_one_past() {
    needs_source!();
    let cases: Vec<Case> = (0..24).map(|index| call(SEED, Class::Limits, index)).collect();
    for length in [0, MOST_BYTES, MOST_BYTES + 1] {
        assert!(cases.iter().any(|case| case.text.len() == length), "text of {length}");
        assert!(cases.iter().any(|case| case.tape.len() == length), "tape of {length}");
    }
    let full = cases.iter().find(|case| case.tape.len() == MOST_BYTES && formatted(case).is_ok());
    assert!(full.is_some(), "an accepted tape of the most bytes");
}

#[test]
fn jobs_are_printed_refused_by_the_call_and_refused_as_jobs() {
    needs_source!();
    let mut texts = 0;
    let mut lines = BTreeSet::new();
    for index in 0..3_000 {
        match String::from_utf8(printed(&job(index))).unwrap() {
            line if line.starts_with("refused ") => drop(lines.insert(line)),
            _ => texts += 1,
        }
    }
    assert!(texts > 1_000, "{texts} texts");
    for place in [0, 2, 4, 65_536] {
        assert!(lines.contains(&format!("refused 14 at {place}\n")), "14 at {place}");
    }
    for number in [1, 2, 4, 6, 7, 8, 9, 10, 11, 12] {
        assert!(lines.iter().any(|line| line.starts_with(&format!("refused {number} at "))), "{number}");
    }
}

#[test]
fn long_jobs_stand_on_both_sides_of_the_buffer() {
    needs_source!();
    let lengths: BTreeSet<usize> = (0..3_000).map(|index| job(index).len()).filter(|length| *length > 60_000).collect();
    assert_eq!(lengths.into_iter().collect::<Vec<_>>(), [65_535, 65_536, 65_537, 65_538]);
}

/// Cases are named by their numbers elsewhere, so a change of a generator has to show.
#[test]
fn the_first_cases_are_the_ones_they_always_were() {
    needs_source!();
    let sums =
        Class::ALL.map(|(_, class)| (0..24).fold(0, |sum, index| checksum(sum, &bytes_of(make(SEED, class, index)))));
    let expected = [
        11_202_158_228_322_769_669,
        15_632_258_231_340_237_505,
        11_299_818_120_066_028_004,
        8_009_621_990_073_209_210,
        964_324_876_942_875_903,
        17_773_102_487_889_945_319,
        11_363_470_445_640_504_557,
        7_686_843_692_516_724_998,
        17_756_756_753_743_144_356,
        4_785_548_435_630_006_274,
        1_106_184_582_570_739_320,
        6_201_839_075_419_040_035,
        13_479_420_962_885_586_760,
        17_165_747_131_713_380_352,
        3_950_505_699_754_599_138,
        9_951_125_735_200_283_694,
        4_758_170_455_706_926_525,
        9_571_150_574_409_404_053,
        2_895_821_372_374_533_533,
        16_491_176_761_014_964_357,
        11_968_279_579_285_853_167,
    ];
    assert_eq!(sums, expected);
}

/// All bytes of a case in a row.
fn bytes_of(made: Made) -> Vec<u8> {
    match made {
        Made::Job(bytes) | Made::Word(bytes) | Made::Book(bytes) => bytes,
        Made::Call(case) => call_bytes(&case),
        Made::Pair(pair) => [call_bytes(&pair.case(0)), call_bytes(&pair.case(1))].concat(),
        Made::MapCall(case) => map_call_bytes(&case),
        Made::MapPair(pair) => [map_call_bytes(&pair.case(0)), map_call_bytes(&pair.case(1))].concat(),
        Made::BookPair(books) => books.concat(),
    }
}

fn map_call_bytes(case: &MapCase) -> Vec<u8> {
    let map: Vec<u8> = case.map.iter().flat_map(|number| number.to_le_bytes()).collect();
    [call_bytes(&case.call), map].concat()
}

fn call_bytes(case: &Case) -> Vec<u8> {
    [&case.width.to_le_bytes(), &case.case.to_le_bytes(), &case.text[..], &case.tape, &case.space].concat()
}

/// FNV-1a, going on from an earlier sum.
fn checksum(sum: u64, bytes: &[u8]) -> u64 {
    bytes.iter().fold(sum ^ 0xCBF2_9CE4_8422_2325, |sum, byte| (sum ^ u64::from(*byte)).wrapping_mul(0x0100_0000_01B3))
}
