//! The generators of books: each class holds what it is for, and masked books have one report.

mod common;

use oracle::answers::Answer;
use oracle::cases::{make, Class, Made};
use oracle::job;
use oracle::report::{claim, differ_as_masked, first_job, jobs, report, Tally, MOST_BYTES, MOST_JOBS};
use std::collections::{BTreeMap, BTreeSet};

const SEED: u64 = 1;

fn book(class: Class, index: u64) -> Vec<u8> {
    match make(SEED, class, index) {
        Made::Book(book) => book,
        _ => panic!("{class:?} makes no single books"),
    }
}

fn pair(index: u64) -> [Vec<u8>; 2] {
    match make(SEED, Class::BooksMasked, index) {
        Made::BookPair(books) => books,
        _ => panic!("the class makes pairs of books"),
    }
}

/// How often each number is answered for a job of these books; 0 where it is laid out.
fn answers_of(books: impl Iterator<Item = Vec<u8>>) -> BTreeMap<u64, u64> {
    let mut counts = BTreeMap::new();
    for book in books {
        for job in jobs(&book).unwrap_or_default() {
            *counts.entry(job::layout(job).map_or_else(|refusal| refusal.number, |_| 0)).or_default() += 1;
        }
    }
    counts
}

#[test]
fn books_are_accepted_and_short_and_hold_jobs_of_every_answer() {
    needs_source!();
    const BOOKS: u64 = 2_000;
    let books = || (0..BOOKS).map(|index| book(Class::Books, index));
    assert!(books().all(|book| jobs(&book).is_ok()));
    let counts: BTreeSet<usize> = books().map(|book| jobs(&book).unwrap().len()).collect();
    assert_eq!(counts.into_iter().collect::<Vec<_>>(), [0, 1, 2, 3, 4, 5, 7]);
    let bytes = books().map(|book| book.len() as u64).sum::<u64>() / BOOKS;
    assert!(bytes < 3_000, "{bytes} bytes a book");
    let answers = answers_of(books());
    for number in [0, 1, 2, 4, 6, 7, 8, 9, 10, 11, 12, 14, 15, 16] {
        assert!(answers.get(&number).is_some_and(|count| *count >= 5), "{number}: {answers:?}");
    }
    assert!(books().any(|book| jobs(&book).unwrap().contains(&&[][..])), "a job of no byte");
}

#[test]
fn damaged_books_are_refused_at_a_first_or_later_command_or_have_other_jobs() {
    needs_source!();
    let mut places = BTreeMap::new();
    for index in 0..2_000 {
        let place = jobs(&book(Class::BooksDamaged, index)).err().map(|refusal| {
            assert_eq!(refusal.number, 18);
            refusal.second.min(1)
        });
        *places.entry(place).or_insert(0) += 1;
    }
    for place in [None, Some(0), Some(1)] {
        assert!(places[&place] > 100, "{places:?}");
    }
}

/// Why a book's command at a place is refused.
#[derive(Debug, PartialEq, Eq, PartialOrd, Ord)]
enum Fault {
    Wrong,
    HeadCut,
    PassesTheEnd,
}

#[test]
fn damaged_books_have_wrong_commands_cut_ones_and_lengths_that_pass_the_end() {
    needs_source!();
    let mut seen = BTreeSet::new();
    for index in 0..2_000 {
        let book = book(Class::BooksDamaged, index);
        let Err(Answer { second, .. }) = jobs(&book) else { continue };
        seen.insert(match &book[second as usize..] {
            [0x20, _, _, _, _, ..] => Fault::PassesTheEnd,
            [0x20, ..] => Fault::HeadCut,
            _ => Fault::Wrong,
        });
    }
    assert_eq!(seen.into_iter().collect::<Vec<_>>(), [Fault::Wrong, Fault::HeadCut, Fault::PassesTheEnd]);
}

#[test]
fn limits_hold_the_most_jobs_and_bytes_and_one_past() {
    needs_source!();
    let books: Vec<Vec<u8>> = (0..32).map(|index| book(Class::BooksLimits, index)).collect();
    let count = |book: &[u8]| jobs(book).map_or(None, |jobs| Some(jobs.len()));
    for jobs in [0, 1, MOST_JOBS - 1, MOST_JOBS] {
        assert!(books.iter().any(|book| count(book) == Some(jobs)), "{jobs} jobs");
    }
    for bytes in [0, MOST_BYTES, MOST_BYTES + 1] {
        assert!(books.iter().any(|book| book.len() == bytes), "{bytes} bytes");
    }
    assert!(books.iter().any(|book| book.len() == MOST_BYTES && count(book).is_some()), "a full book");
    let refusals: Vec<Answer> = books.iter().filter_map(|book| jobs(book).err()).collect();
    let place = 5 * MOST_JOBS as u64;
    for (number, second) in [(18, 0), (18, MOST_BYTES as u64), (18, place), (19, place)] {
        assert!(refusals.contains(&Answer { number, second }), "{number} at {second}: {refusals:?}");
    }
}

#[test]
fn limits_hold_every_refusal_of_a_job_and_layouts_about_the_buffer() {
    needs_source!();
    let answers = answers_of((0..32).map(|index| book(Class::BooksLimits, index)));
    for number in [0, 1, 2, 4, 6, 7, 8, 9, 10, 11, 12, 13, 14, 15, 16] {
        assert!(answers.contains_key(&number), "{number}: {answers:?}");
    }
    let printed =
        |index| String::from_utf8(report(&book(Class::BooksLimits, index), Tally::default()).printed).unwrap();
    assert!(printed(22).contains("2 bytes 65536 lines 1\n"));
    assert!(printed(23).contains("2 refused 13 at 65537\n"));
    assert!(printed(24).starts_with("1 bytes 60002 lines 60001\n2 bytes 3 lines 2\n3 bytes 2 lines 1\n"));
}

/// A book of the class meets the conditions, and with its pair the claim.
#[test]
fn masked_books_meet_the_conditions_and_have_one_report() {
    needs_source!();
    for index in 0..1_000 {
        let [first, second] = pair(index);
        assert!(differ_as_masked(&first, &second), "{index}");
        assert_eq!(claim(&first, &second), Ok(()), "{index}");
    }
}

/// The jobs of a book up to a fault.
fn jobs_of(book: &[u8]) -> Vec<&[u8]> {
    let (mut jobs, mut rest) = (Vec::new(), book);
    while let Some((job, after)) = first_job(rest) {
        jobs.push(job);
        rest = after;
    }
    jobs
}

/// How many jobs of two books differ, are alike and accepted, and are alike and refused.
fn sorts([first, second]: &[Vec<u8>; 2]) -> [usize; 3] {
    let mut counts = [0; 3];
    for (one, other) in jobs_of(first).into_iter().zip(jobs_of(second)) {
        counts[if one != other { 0 } else { 1 + usize::from(job::layout(one).is_err()) }] += 1;
    }
    counts
}

#[test]
fn masked_books_hold_several_masked_jobs_beside_unchanged_and_refused_ones() {
    needs_source!();
    let pairs: Vec<[Vec<u8>; 2]> = (0..1_000).map(pair).collect();
    let all_sorts = |pair: &&[Vec<u8>; 2]| sorts(pair).iter().zip([2, 1, 1]).all(|(count, least)| *count >= least);
    assert!(pairs.iter().filter(all_sorts).count() > 50);
    let is_13 = |job: &[u8]| job::layout(job).is_err_and(|refusal| refusal.number == 13);
    let masked_13 =
        pairs.iter().flat_map(|[first, second]| Vec::from_iter(jobs_of(first).into_iter().zip(jobs_of(second))));
    assert!(masked_13.filter(|(one, other)| one != other && is_13(one) && is_13(other)).count() > 10);
    let is_masked = |pair: &&[Vec<u8>; 2]| pair[0] != pair[1];
    let refused: BTreeSet<(u64, bool)> = pairs
        .iter()
        .filter(is_masked)
        .filter_map(|pair| jobs(&pair[0]).err())
        .map(|refusal| (refusal.number, refusal.second == MOST_BYTES as u64))
        .collect();
    assert_eq!(refused.into_iter().collect::<Vec<_>>(), [(18, false), (18, true), (19, false)]);
}
