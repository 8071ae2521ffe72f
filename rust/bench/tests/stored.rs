//! The port answers the stored list as it says, in no output space too, and touches nothing around the space. Needs the library alone, not the
//! source.

use bench::compare::answered;
use oracle::answers::{Answered, Case};
use oracle::stored::read;

const LIST: &[u8] = include_bytes!("../../../vectors/vectors.bin");

#[test]
fn the_stored_list() {
    let records = read(LIST).expect("a whole list");
    assert!(!records.is_empty());
    for (place, record) in records.iter().enumerate() {
        assert_eq!(answered(&record.case), Ok(record.answered()), "record {place}");
        let in_no_space = Answered { laid_out: record.in_no_space(), space: Vec::new() };
        assert_eq!(
            answered(&Case { space: Vec::new(), ..record.case.clone() }),
            Ok(in_no_space),
            "record {place} in no space"
        );
    }
}
