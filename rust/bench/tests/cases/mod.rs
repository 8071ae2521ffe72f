//! The port beside the oracle on the first cases of a class.

use bench::compare::compare;
use oracle::cases::Class;

/// The first so many cases of a class agree. Skipped where the source is not at hand.
pub fn agree(test: &str, seed: u64, class: Class, count: u64) {
    if !oracle::source::at_hand_for(test) {
        return;
    }
    for index in 0..count {
        compare(seed, class, index).unwrap_or_else(|difference| panic!("{difference}"));
    }
}
