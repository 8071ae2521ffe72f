//! Jobs by the thousand from bytes to the readable form and back.

use job_text::{parse, print};
use oracle::answers::Case;
use oracle::cases::{make, Class, Made};
use oracle::job::{read, write, BUFFER};
use oracle::random::Random;
use oracle::source::at_hand_for;
use std::path::Path;
use std::{fs, str};

const SEED: u64 = 40;

/// The job comes back from its form, and the form from the job.
fn assert_round(job: &[u8], name: &str) {
    let form = print(job).unwrap_or_else(|fault| panic!("{name}: {fault}"));
    let back = parse(form.as_bytes()).unwrap_or_else(|fault| panic!("{name}: {fault}"));
    assert!(back == job, "{name}: the bytes differ");
    assert!(print(&back).as_deref() == Ok(&form), "{name}: the forms differ");
}

fn jobs(class: Class, index: u64) -> Vec<Vec<u8>> {
    match make(SEED, class, index) {
        Made::Call(case) => vec![write(&case)],
        Made::Pair(pair) => [0, 1].map(|which| write(&pair.case(which))).to_vec(),
        Made::Job(job) => vec![job],
        Made::Word(_) => panic!("a word is no job"),
        Made::MapCall(case) => vec![write(&case.call)],
        Made::MapPair(pair) => [0, 1].map(|which| write(&pair.calls.case(which))).to_vec(),
        Made::Book(_) | Made::BookPair(_) => panic!("a book is no job"),
    }
}

fn assert_class(name: &str, count: u64) {
    let class = Class::named(name).expect("a class of the oracle");
    if !at_hand_for(&format!("round trips of {name}")) {
        return;
    }
    for index in 0..count {
        for job in jobs(class, index) {
            assert_round(&job, &format!("seed {SEED}, {name}, index {index}"));
        }
    }
}

#[test]
fn parser() {
    assert_class("parser", 3_000);
}

#[test]
fn wild() {
    assert_class("wild", 3_000);
}

#[test]
fn small() {
    assert_class("small", 3_000);
}

#[test]
fn damaged() {
    assert_class("damaged", 3_000);
}

#[test]
fn masked() {
    assert_class("masked", 1_000);
}

#[test]
fn limits() {
    assert_class("limits", 48);
}

#[test]
fn utf8() {
    assert_class("utf8", 3_000);
}

#[test]
fn utf8_small() {
    assert_class("utf8-small", 5_000);
}

#[test]
fn utf8_damaged() {
    assert_class("utf8-damaged", 5_000);
}

#[test]
fn utf8_masked() {
    assert_class("utf8-masked", 1_000);
}

#[test]
fn utf8_limits() {
    assert_class("utf8-limits", 30);
}

/// Every character there is, a few hundred to a job.
#[test]
fn every_character() {
    let all: Vec<char> = (char::MIN..=char::MAX).collect();
    for characters in all.chunks(500) {
        let text: String = characters.iter().collect();
        let job = write(&Case { text: text.into_bytes(), tape: Vec::new(), width: 4, case: 1, space: Vec::new() });
        assert_round(&job, &format!("the characters from {:?}", characters[0]));
    }
}

/// A job has a form exactly if the desk's program can read its header.
#[test]
fn jobs_with_a_sound_header() {
    if !at_hand_for("jobs_with_a_sound_header") {
        return;
    }
    let (mut sound, mut faulty) = (0, 0);
    for index in 0..3_000 {
        for job in jobs(Class::Jobs, index) {
            let name = format!("seed {SEED}, jobs, index {index}");
            // A job that is too long for the program has a form all the same.
            match read(&job).err().filter(|_| job.len() <= BUFFER) {
                Some(refusal) => {
                    assert_eq!(print(&job).unwrap_err().place as u64, refusal.second, "{name}");
                    faulty += 1;
                }
                None => {
                    assert_round(&job, &name);
                    sound += 1;
                }
            }
        }
    }
    assert!(sound > 1_000 && faulty > 500, "{sound} sound, {faulty} faulty");
}

/// What a parser makes needs neither the text nor a span.
#[test]
fn parser_trees_are_words_alone() {
    if !at_hand_for("parser_trees_are_words_alone") {
        return;
    }
    for index in 0..1_000 {
        for job in jobs(Class::Parser, index) {
            let form = print(&job).expect("a good job");
            for line in form.lines().skip(3) {
                let line = line.trim_start();
                assert!(!line.contains(' ') || line.ends_with('"'), "seed {SEED}, parser, index {index}: {line}");
                assert!(!line.starts_with("text "), "seed {SEED}, parser, index {index}: {line}");
            }
        }
    }
}

/// Bytes that are mostly commands with small operands, so that all sorts of broken tapes come up.
fn any_bytes(random: &mut Random) -> Vec<u8> {
    let mut bytes = vec![0x10, random.next() as u8, 0x11, random.below(4) as u8, 0x12];
    let text: Vec<u8> = (0..random.below(12)).map(|_| random.next() as u8).collect();
    bytes.extend((text.len() as u32).to_le_bytes());
    bytes.extend(text);
    for _ in 0..random.below(30) {
        match random.below(20) {
            0 => bytes.push(random.next() as u8),
            1..=6 => bytes.push(3),
            command => {
                let kind = random.below(520) as u16 / (1 + random.below(2) as u16);
                bytes.push(1 + command as u8 % 2);
                bytes.extend(kind.to_le_bytes());
                bytes.extend((0..2).flat_map(|_| (random.below(14) as u32).to_le_bytes()));
            }
        }
    }
    bytes
}

#[test]
fn any_bytes_behind_a_sound_header() {
    for index in 0..20_000 {
        let job = any_bytes(&mut Random::of(SEED, 100, index));
        assert_round(&job, &format!("seed {SEED}, any bytes, index {index}"));
    }
}

/// A tape of opens alone, as deep as a job can be.
#[test]
fn the_deepest_job() {
    let mut job = vec![0x10, 4, 0x11, 1, 0x12, 0, 0, 0, 0];
    while job.len() + 11 <= BUFFER {
        job.extend([1, 1, 0, 0, 0, 0, 0, 0, 0, 0, 0]);
    }
    assert_round(&job, "the deepest job");
}

#[test]
fn the_stored_jobs_of_the_desk() {
    let folder = Path::new(env!("CARGO_MANIFEST_DIR")).join("../../crates/desk/runs");
    let mut sound = 0;
    for entry in fs::read_dir(folder).expect("the stored jobs") {
        let path = entry.expect("a stored job").path();
        if path.extension().is_none_or(|extension| extension != "job") {
            continue;
        }
        let job = fs::read(&path).expect("a stored job");
        let printed = fs::read(path.with_extension("out")).expect("what it prints");
        let printed = str::from_utf8(&printed).expect("UTF-8");
        match printed.strip_prefix("refused 14 at ").filter(|place| place.trim() != "65536") {
            Some(place) => assert_eq!(print(&job).unwrap_err().place.to_string(), place.trim(), "{path:?}"),
            None => {
                assert_round(&job, &path.display().to_string());
                sound += 1;
            }
        }
    }
    assert!(sound > 50, "{sound} jobs with a sound header");
}
