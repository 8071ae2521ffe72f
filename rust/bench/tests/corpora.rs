//! The benchmark of laying out: its corpora are what they say, lay out as the source does, and can be timed.

use bench::corpora::{is_broken, named, tokens, ALL};
use bench::rounds::{least_times, Queries};
use oracle::answers::{Answer, Case};
use oracle::edit::{kind_at, span_at, text_at};
use oracle::kinds;
use oracle::source::at_hand_for;
use oracle::tape::{command_places, CLOSE, OPEN};
use std::collections::HashSet;
use std::process::{Command, Output};

const SEED: u64 = 1;

fn made(name: &str, seed: u64) -> Vec<Case> {
    (named(name).expect("a corpus").make)(seed)
}

/// The one query of a corpus that has one.
fn only(name: &str) -> Case {
    let [query] = &made(name, SEED)[..] else { panic!("{name} has one query") };
    query.clone()
}

#[test]
fn every_corpus_lays_out_as_the_source_does_and_is_timed() {
    if !at_hand_for("every_corpus_lays_out_as_the_source_does_and_is_timed") {
        return;
    }
    for corpus in &ALL {
        let mut queries = Queries::new((corpus.make)(SEED));
        queries.compare(bench::layout).unwrap_or_else(|difference| panic!("{}, {difference}", corpus.name));
        let times = least_times(&mut queries, 2);
        for time in [times.ready_tree, times.from_tape, times.port] {
            assert!(time.is_finite() && time > 0.0, "{}", corpus.name);
        }
    }
}

/// The port's laying out, with the last byte before the newline changed.
fn one_byte_wrong(text: &[u8], tape: &[u8], width: u64, case: u64, out: &mut [u8]) -> Answer {
    let answer = bench::layout(text, tape, width, case, out);
    let last = out.len() - 2;
    out[last] ^= 1;
    answer
}

/// The port's laying out, with an answer of one byte less.
fn one_byte_less(text: &[u8], tape: &[u8], width: u64, case: u64, out: &mut [u8]) -> Answer {
    let answer = bench::layout(text, tape, width, case, out);
    Answer { second: answer.second - 1, ..answer }
}

#[test]
fn a_layout_that_differs_is_an_error() {
    if !at_hand_for("a_layout_that_differs_is_an_error") {
        return;
    }
    let queries = Queries::new(made("wide-50", SEED));
    assert_eq!(queries.compare(one_byte_wrong), Err("query 0: the port's layout is not the source's".to_string()));
    assert!(queries.compare(one_byte_less).is_err());
}

#[test]
fn typical_has_many_different_queries_and_a_sixth_of_them_broken() {
    if !at_hand_for("typical_has_many_different_queries_and_a_sixth_of_them_broken") {
        return;
    }
    for seed in [SEED, 2, 3] {
        let queries = made("typical", seed);
        let different: HashSet<(&[u8], &[u8])> =
            queries.iter().map(|query| (&query.text[..], &query.tape[..])).collect();
        assert!(different.len() == queries.len() && queries.len() >= 2_000, "seed {seed}");
        let broken = queries.iter().filter(|query| is_broken(query)).count() as f64 / queries.len() as f64;
        assert!((0.15..=0.20).contains(&broken), "seed {seed}: {broken}");
        assert!(made("broken", seed).iter().all(is_broken), "seed {seed}");
        assert!(!is_broken(&made("repeated", seed)[0]), "seed {seed}");
    }
}

#[test]
fn utf8_is_typical_in_other_letters() {
    if !at_hand_for("utf8_is_typical_in_other_letters") {
        return;
    }
    let (plain, letters) = (made("typical", SEED), made("utf8", SEED));
    assert_eq!(plain.len(), letters.len());
    assert!(plain.iter().zip(&letters).all(|(one, other)| one.tape.len() == other.tape.len()));
    let sum = |count: fn(&Case) -> usize| letters.iter().map(count).sum::<usize>() as f64;
    let beyond = sum(|query| query.text.iter().filter(|byte| !byte.is_ascii()).count()) / sum(|query| query.text.len());
    assert!((0.2..=0.5).contains(&beyond), "{beyond} of the bytes are above 127");
    let without = letters.iter().filter(|query| query.text.is_ascii()).count();
    assert!(without * 20 < letters.len(), "{without} queries are ASCII");
    let comments = |query: &Case| {
        let comment = kinds::number("Comment");
        let holds = |place: &usize| text_at(query, *place).is_some_and(|text| !text.is_ascii());
        tokens(query).iter().any(|place| kind_at(&query.tape, *place) == comment && holds(place))
    };
    assert!(letters.iter().filter(|query| comments(query)).count() > 500);
}

#[test]
fn a_seed_makes_the_same_queries_again_and_another_seed_makes_others() {
    if !at_hand_for("a_seed_makes_the_same_queries_again_and_another_seed_makes_others") {
        return;
    }
    assert!(made("typical", SEED) == made("typical", SEED));
    let (ours, others) = (made("typical", SEED), made("typical", 2));
    let alike = ours.iter().filter(|query| others.contains(query)).count();
    assert!(alike * 100 < ours.len(), "{alike} queries alike");
}

/// The most nodes open at once.
fn levels(query: &Case) -> usize {
    let (mut open, mut most) = (0, 0);
    for place in command_places(&query.tape) {
        match query.tape[place] {
            OPEN => open += 1,
            CLOSE => open -= 1,
            _ => {}
        }
        most = open.max(most);
    }
    most
}

#[test]
fn corpora_of_one_shape_have_the_tokens_and_levels_that_they_say() {
    if !at_hand_for("corpora_of_one_shape_have_the_tokens_and_levels_that_they_say") {
        return;
    }
    for (name, count, depth) in [
        ("wide-50", 3 * 50, 5),
        ("wide-500", 3 * 500, 5),
        ("wide-2500", 3 * 2_500, 5),
        ("words", 20_000, 2),
        ("keywords", 20_000, 2),
        ("numbers", 20_000, 2),
        ("deep-63", 20_000, 63),
        ("group-by-63", 20_000, 63),
        ("blank-gaps", 23_801, 2),
        ("blank-words", 23_801, 2),
        ("blank-numbers", 23_801, 2),
    ] {
        let query = only(name);
        assert_eq!((tokens(&query).len(), levels(&query)), (count, depth), "{name}");
    }
}

#[test]
fn corpora_of_a_size_have_tapes_of_it() {
    if !at_hand_for("corpora_of_a_size_have_tapes_of_it") {
        return;
    }
    for (end, sizes) in [("-5kb", 4_600..4_700), ("-231kb", 230_500..232_000)] {
        let of_it: Vec<&str> = ALL.iter().map(|corpus| corpus.name).filter(|name| name.ends_with(end)).collect();
        assert_eq!(of_it.len(), 6, "{end}");
        for name in of_it {
            let size = only(name).tape.len();
            assert!(sizes.contains(&size), "{name}: {size}");
        }
    }
}

#[test]
fn tokens_of_blanks_overlap() {
    if !at_hand_for("tokens_of_blanks_overlap") {
        return;
    }
    let query = only("blank-gaps");
    let blanks: Vec<usize> = tokens(&query).into_iter().skip(1).collect();
    for place in &blanks {
        assert!(text_at(&query, *place).is_some_and(|text| text == [b' '; 4_096]));
    }
    let spans: Vec<(u32, u32)> = blanks.iter().map(|place| span_at(&query.tape, *place)).collect();
    assert!(spans.windows(2).all(|pair| pair[1].0 < pair[0].1));
}

fn format(words: &[&str]) -> Output {
    Command::new(env!("CARGO_BIN_EXE_format")).args(words).output().expect("the program starts")
}

#[test]
fn the_program_prints_a_row_and_runs_a_side_once() {
    if !at_hand_for("the_program_prints_a_row_and_runs_a_side_once") {
        return;
    }
    let table = format(&["--seed", "2", "--rounds", "1", "wide-50"]);
    assert!(table.status.success());
    let printed = String::from_utf8(table.stdout).expect("ASCII");
    assert!(printed.starts_with("seed 2, 1 rounds"), "{printed}");
    assert!(printed.lines().last().is_some_and(|row| row.starts_with("wide-50 ")), "{printed}");
    for side in ["ready-tree", "from-tape", "layout", "no-space", "map"] {
        let once = format(&["--once", side, "wide-50"]);
        assert_eq!(String::from_utf8_lossy(&once.stdout), "150 tokens, 2298 tape bytes\n", "{side}");
    }
}

#[test]
fn a_bad_call_of_the_program_has_status_2() {
    for words in [
        &["nothing"][..],
        &["--seed"],
        &["--rounds", "0"],
        &["--once", "layout"],
        &["--once", "nothing", "wide-50"],
        &["--once", "layout", "wide-50", "words"],
        &["--once", "layout", "--rounds", "2", "wide-50"],
        &["--list", "wide-50"],
    ] {
        let output = format(words);
        assert_eq!(output.status.code(), Some(2), "{words:?}");
        assert!(output.stdout.is_empty() && String::from_utf8_lossy(&output.stderr).contains("usage"), "{words:?}");
    }
}
