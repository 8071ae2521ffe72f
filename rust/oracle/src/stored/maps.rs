//! The stored list of map calls and their answers (vectors/maps.bin): which calls they are, and the list's bytes, written and read.
//! vectors/README.md describes them.

use super::{by_hand, layout_length, read_record, take_number, write_record, Record, FILL};
use crate::answers::{Answer, Case};
use crate::cases::{make, Class, Made};
use crate::map::{answer, needed, with_exact_spaces, MapCase, Mapped};

/// What fills the map space before a call; no map has this number.
pub const MAP_FILL: u64 = u64::MAX;

/// The most numbers of a map space that is stored.
pub const MOST_NUMBERS: usize = 4_096;

/// The most bytes of a record whose call is made from a seed.
const MOST_BYTES: usize = 1_000;

const SEED: u64 = 1;

/// How many calls of each class are taken, those aside whose record is longer: from the first on, as many as there are.
const TAKEN: [(Class, u64); 4] =
    [(Class::Map, 900), (Class::MapDamaged, 300), (Class::MapMasked, 30), (Class::MapLimits, 144)];

/// A map call, its answer, the layout and the map, which are empty where the call is refused.
#[derive(Clone, Debug, PartialEq)]
pub struct MapRecord {
    /// The call and its answer, as those of a layout are stored.
    pub record: Record,
    /// The map space's length.
    pub numbers: usize,
    pub map: Vec<u64>,
}

impl MapRecord {
    /// The call in spaces of its lengths that are filled anew, with the oracle's answer.
    pub fn of(case: MapCase) -> MapRecord {
        let call = Case { space: vec![FILL; case.call.space.len()], ..case.call };
        let case = MapCase { call, map: vec![MAP_FILL; case.map.len()] };
        let Mapped { answer, mut space, mut map } = answer(&case);
        space.truncate(layout_length(answer));
        map.truncate(if answer.number == 0 { needed(&case.call).expect("accepted") } else { 0 });
        let record = Record { case: case.call, laid_out: answer, layout: space };
        MapRecord { record, numbers: case.map.len(), map }
    }

    /// The call.
    pub fn case(&self) -> MapCase {
        MapCase { call: self.record.case.clone(), map: vec![MAP_FILL; self.numbers] }
    }

    /// What it must answer, and both spaces afterwards.
    pub fn mapped(&self) -> Mapped {
        let MapCase { call, mut map } = self.case();
        let mut space = call.space;
        space[..self.record.layout.len()].copy_from_slice(&self.record.layout);
        map[..self.map.len()].copy_from_slice(&self.map);
        Mapped { answer: self.answer(), space, map }
    }

    pub fn answer(&self) -> Answer {
        self.record.laid_out
    }

    /// The record's bytes; none where it does not suit the list.
    fn bytes(&self) -> Option<Vec<u8>> {
        let mut bytes = Vec::new();
        write_record(&mut bytes, &self.record)?;
        let numbers = Some(self.numbers).filter(|numbers| *numbers <= MOST_NUMBERS)?;
        let lengths = [numbers, self.map.len()].map(|length| length as u64);
        lengths.iter().chain(&self.map).for_each(|number| bytes.extend(number.to_le_bytes()));
        Some(bytes)
    }
}

/// The records of the list: the long calls made by hand, and calls of each class.
pub fn every() -> Vec<MapRecord> {
    let by_hand = by_hand::every().into_iter().take_while(|name| !name.starts_with("keywords-"));
    let by_hand = by_hand.map(|name| by_hand::call(&name).expect("a call of the list"));
    let by_hand = by_hand.map(|call| MapRecord::of(MapCase { call, map: vec![MAP_FILL; 2] }));
    let generated = TAKEN.into_iter().flat_map(|(class, count)| (0..count).flat_map(move |index| calls(class, index)));
    let is_short = |record: &MapRecord| record.bytes().is_some_and(|bytes| bytes.len() <= MOST_BYTES);
    by_hand.chain(generated.map(MapRecord::of).filter(is_short)).collect()
}

/// The call of this class and index, or both of a pair. A good call is lent the spaces that it needs, every other one five cells more.
fn calls(class: Class, index: u64) -> Vec<MapCase> {
    match make(SEED, class, index) {
        Made::MapCall(case) if class == Class::Map => vec![with_more(case.call, [0, 5][(index % 2) as usize])],
        Made::MapCall(case) => vec![case],
        Made::MapPair(pair) => vec![pair.case(0), pair.case(1)],
        _ => panic!("{class:?} makes no map calls"),
    }
}

fn with_more(call: Case, cells: usize) -> MapCase {
    let mut case = with_exact_spaces(call);
    case.call.space.resize(case.call.space.len() + cells, FILL);
    case.map.resize(case.map.len() + cells, MAP_FILL);
    case
}

/// The list's bytes; none where a record does not suit it.
pub fn write(records: &[MapRecord]) -> Option<Vec<u8>> {
    let mut list = (records.len() as u64).to_le_bytes().to_vec();
    for record in records {
        list.extend(record.bytes()?);
    }
    Some(list)
}

/// The list's records; none if it is cut short or goes on after them.
pub fn read(list: &[u8]) -> Option<Vec<MapRecord>> {
    let mut rest = list;
    let count = take_number(&mut rest)?;
    let records = (0..count).map(|_| read_map_record(&mut rest)).collect::<Option<_>>()?;
    rest.is_empty().then_some(records)
}

fn read_map_record(rest: &mut &[u8]) -> Option<MapRecord> {
    let record = read_record(rest)?;
    let numbers = take_number(rest)? as usize;
    let length = take_number(rest)?;
    let map = (0..length).map(|_| take_number(rest)).collect::<Option<_>>()?;
    Some(MapRecord { record, numbers, map })
}
