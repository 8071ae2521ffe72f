//! The stored list of calls and their answers: its bytes, written and read. vectors/README.md describes them.

pub mod by_hand;
pub mod maps;
pub mod names;
pub mod words;

use crate::answers::{answer, Answer, Answered, Case};

/// What fills the output space before a call; no layout has this byte.
pub const FILL: u8 = 255;

/// The most bytes of a text, a tape or an output space that is stored; longer texts and tapes end in zeros.
pub const MOST_STORED: usize = 4_096;

/// A call, what laying out answers, and the layout, which is empty where the call is refused.
#[derive(Clone, Debug, PartialEq)]
pub struct Record {
    pub case: Case,
    pub laid_out: Answer,
    pub layout: Vec<u8>,
}

impl Record {
    /// The call in a space of its length that is filled anew, with the oracle's answer.
    pub fn of(case: Case) -> Record {
        let case = Case { space: vec![FILL; case.space.len()], ..case };
        let Answered { laid_out, mut space, .. } = answer(&case);
        space.truncate(layout_length(laid_out));
        Record { case, laid_out, layout: space }
    }

    /// What the call must answer, and the space afterwards.
    pub fn answered(&self) -> Answered {
        let mut space = self.case.space.clone();
        space[..self.layout.len()].copy_from_slice(&self.layout);
        Answered { laid_out: self.laid_out, space }
    }

    /// What the call must answer in an output space of 0 bytes: 13 where it is a layout that needs some.
    pub fn in_no_space(&self) -> Answer {
        let Answer { number, second } = self.laid_out;
        Answer { number: if number == 0 && second > 0 { 13 } else { number }, second }
    }
}

fn layout_length(laid_out: Answer) -> usize {
    match laid_out.number {
        0 => laid_out.second as usize,
        _ => 0,
    }
}

/// The list's bytes; the error names a record that does not suit it.
pub fn write(records: &[Record]) -> Result<Vec<u8>, String> {
    let mut list = (records.len() as u64).to_le_bytes().to_vec();
    for (place, record) in records.iter().enumerate() {
        write_record(&mut list, record).ok_or(format!("record {place} is too long"))?;
    }
    Ok(list)
}

fn write_record(list: &mut Vec<u8>, record: &Record) -> Option<()> {
    let Record { case, laid_out, layout } = record;
    let (text, text_zeros) = parts(&case.text)?;
    let (tape, tape_zeros) = parts(&case.tape)?;
    let space = Some(case.space.len()).filter(|length| *length <= MOST_STORED)?;
    let lengths = [text.len(), text_zeros, tape.len(), tape_zeros, space].map(|length| length as u64);
    let numbers = [&[case.width, case.case], &lengths[..], &[laid_out.number, laid_out.second]].concat();
    numbers.iter().for_each(|number| list.extend(number.to_le_bytes()));
    [text, tape, layout].iter().for_each(|bytes| list.extend(*bytes));
    Some(())
}

/// The bytes that are stored, and how many zeros come after them; none if too many would be stored.
fn parts(bytes: &[u8]) -> Option<(&[u8], usize)> {
    if bytes.len() <= MOST_STORED {
        return Some((bytes, 0));
    }
    let stored = bytes.iter().rposition(|byte| *byte != 0).map_or(0, |last| last + 1);
    (stored <= MOST_STORED).then_some((&bytes[..stored], bytes.len() - stored))
}

/// The list's records; none if it is cut short or goes on after them.
pub fn read(list: &[u8]) -> Option<Vec<Record>> {
    let mut rest = list;
    let count = take_number(&mut rest)?;
    let records = (0..count).map(|_| read_record(&mut rest)).collect::<Option<_>>()?;
    rest.is_empty().then_some(records)
}

fn read_record(rest: &mut &[u8]) -> Option<Record> {
    let mut numbers = [0; 9];
    for number in &mut numbers {
        *number = take_number(rest)?;
    }
    let [width, case, text, text_zeros, tape, tape_zeros, space, number, second] = numbers;
    let laid_out = Answer { number, second };
    let text = [take(rest, text as usize)?, &vec![0; text_zeros as usize]].concat();
    let tape = [take(rest, tape as usize)?, &vec![0; tape_zeros as usize]].concat();
    let layout = take(rest, layout_length(laid_out))?.to_vec();
    Some(Record { case: Case { text, tape, width, case, space: vec![FILL; space as usize] }, laid_out, layout })
}

fn take_number(rest: &mut &[u8]) -> Option<u64> {
    Some(u64::from_le_bytes(take(rest, 8)?.try_into().ok()?))
}

fn take<'a>(rest: &mut &'a [u8], length: usize) -> Option<&'a [u8]> {
    let (first, after) = rest.split_at_checked(length)?;
    *rest = after;
    Some(first)
}
