//! Words: entries of the list, words that are nearly entries, and any bytes.

use crate::random::Random;
use crate::source;

/// Longer than any entry.
const MOST_BYTES: usize = 16;

/// A word.
pub fn make(random: &mut Random) -> Vec<u8> {
    match random.below(8) {
        0 => in_any_case(entry(random), random),
        1 => value_word(random),
        2 => changed(random),
        3 => two_halves(random),
        4 => letters(random),
        5 => bytes(random, 128),
        6 => bytes(random, 256),
        _ => long(random),
    }
}

fn entry(random: &mut Random) -> &'static [u8] {
    random.pick(source::keywords()).as_bytes()
}

/// The letters of a word, each small or a capital.
fn in_any_case(word: &[u8], random: &mut Random) -> Vec<u8> {
    word.iter().map(|byte| if random.percent(50) { byte.to_ascii_lowercase() } else { *byte }).collect()
}

/// TRUE, FALSE or NULL, now and then with a letter more or less.
fn value_word(random: &mut Random) -> Vec<u8> {
    let mut word = in_any_case(random.pick(&["TRUE", "FALSE", "NULL"]).as_bytes(), random);
    match random.below(4) {
        0 => _ = word.pop(),
        1 => word.push(letter(random)),
        _ => {}
    }
    word
}

/// An entry with one byte changed, removed or put in.
fn changed(random: &mut Random) -> Vec<u8> {
    let mut word = in_any_case(entry(random), random);
    let at = random.below(word.len());
    match random.below(4) {
        0 => word[at] = random.below(256) as u8,
        // The same last five bits, which a letter shares with its other case.
        1 => word[at] = word[at] % 32 + 32 * random.below(8) as u8,
        2 => _ = word.remove(at),
        _ => word.insert(at, letter(random)),
    }
    word
}

/// The front of one entry and the back of another.
fn two_halves(random: &mut Random) -> Vec<u8> {
    let [one, other] = [(); 2].map(|_| entry(random));
    let (end, start) = (random.within(0, one.len()), random.within(0, other.len()));
    in_any_case(&[&one[..end], &other[start..]].concat(), random)
}

fn letter(random: &mut Random) -> u8 {
    b'A' + random.below(26) as u8
}

fn letters(random: &mut Random) -> Vec<u8> {
    (0..random.within(0, MOST_BYTES)).map(|_| letter(random)).collect()
}

fn bytes(random: &mut Random, bound: usize) -> Vec<u8> {
    (0..random.within(0, MOST_BYTES)).map(|_| random.below(bound) as u8).collect()
}

/// A word that begins with an entry and is longer than any, at times by hundreds of bytes.
fn long(random: &mut Random) -> Vec<u8> {
    let mut word = in_any_case(entry(random), random);
    let most = if random.percent(10) { 600 } else { 20 };
    let length = random.within(13, most);
    while word.len() < length {
        word.push(letter(random));
    }
    word
}
