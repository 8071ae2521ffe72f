//! One map call held to the oracle: both numbers of the answer, every byte of the output space, every number of the map space, and the
//! margins around both. The call is a parameter: the port's, or one that stands in for it.

use super::{about, equal, needed_bytes, pattern, Lent, MARGIN};
use oracle::answers::{Answer, Case};
use oracle::cases::{make, Class, Made};
use oracle::map::{answer, claim, needed, MapCase, MapPair, Mapped};
use oracle::masking;

/// The classes whose cases are map calls.
pub const CLASSES: [Class; 4] = [Class::Map, Class::MapDamaged, Class::MapMasked, Class::MapLimits];

/// A map call: text, tape, width, case, output space and map space.
pub trait MapCall: Fn(&[u8], &[u8], u64, u64, &mut [u8], &mut [u64]) -> Answer {}

impl<F: Fn(&[u8], &[u8], u64, u64, &mut [u8], &mut [u64]) -> Answer> MapCall for F {}

/// The case of this seed, class and index on both sides; the error says what differs.
pub fn compare(seed: u64, class: Class, index: u64, port: &impl MapCall) -> Result<(), String> {
    match make(seed, class, index) {
        Made::MapCall(case) => call(&case, port),
        Made::MapPair(pair) => masked(&pair, port),
        _ => panic!("{class:?} makes no map calls"),
    }
    .map_err(|what| format!("seed {seed}, class {class:?}, index {index}: {what}"))
}

/// The call in the case's own spaces, then each length of one space beside the needed length of the other, then both too short.
pub(super) fn call(case: &MapCase, port: &impl MapCall) -> Result<(), String> {
    in_spaces(case, port)?;
    let (bytes, numbers) = (needed_bytes(&case.call), needed(&case.call).unwrap_or(5));
    let lengths = about(bytes).map(|bytes| (bytes, numbers)).into_iter();
    let lengths = lengths.chain(about(numbers).map(|numbers| (bytes, numbers)));
    let both_short = (bytes.saturating_sub(1), numbers.saturating_sub(1));
    for (bytes, numbers) in lengths.chain([both_short]) {
        let call = Case { space: pattern(bytes), ..case.call.clone() };
        in_spaces(&MapCase { call, map: map_pattern(numbers) }, port)?;
    }
    Ok(())
}

/// Numbers that no map has; each unlike its neighbours.
fn map_pattern(length: usize) -> Vec<u64> {
    (0..length as u64).map(|place| u64::MAX - place % 251).collect()
}

/// The call in the case's own spaces.
pub fn in_spaces(case: &MapCase, port: &impl MapCall) -> Result<(), String> {
    let expected = answer(case);
    let got = mapped(case, port)?;
    equal("mapping", got.answer, expected.answer)?;
    if got.space != expected.space {
        return Err(format!("the space of {} bytes after mapping", case.call.space.len()));
    }
    let differs = (0..case.map.len()).find(|place| got.map[*place] != expected.map[*place]);
    differs.map_or(Ok(()), |place| Err(number_differs(place, &got, &expected)))
}

fn number_differs(place: usize, got: &Mapped, expected: &Mapped) -> String {
    let count = expected.map.len();
    format!("number {place} of {count} in the map is {} instead of {}", got.map[place], expected.map[place])
}

/// What the call answers, and both spaces afterwards; the error is that a margin was touched.
pub fn mapped(case: &MapCase, port: &impl MapCall) -> Result<Mapped, String> {
    let MapCase { call, map } = case;
    let mut space = Lent::new(&call.space, pattern(MARGIN));
    let mut numbers = Lent::new(map, map_pattern(MARGIN));
    let answer = port(&call.text, &call.tape, call.width, call.case, space.cells(), numbers.cells());
    Ok(Mapped { answer, space: space.returned("bytes")?, map: numbers.returned("numbers")? })
}

/// Both calls of a pair, which are the oracle's byte for byte and number for number; the rule's claims on these, and on the answers and maps
/// that the call itself gives.
pub(super) fn masked(pair: &MapPair, port: &impl MapCall) -> Result<(), String> {
    masking::claim(&pair.calls)?;
    claim(pair)?;
    let cases = [0, 1].map(|which| pair.case(which));
    cases.iter().try_for_each(|case| call(case, port))?;
    let [first, second] = [mapped(&cases[0], port)?, mapped(&cases[1], port)?];
    equal("the second of a pair", second.answer, first.answer)?;
    if second.map != first.map {
        return Err("the maps of a pair".to_string());
    }
    Ok(())
}
