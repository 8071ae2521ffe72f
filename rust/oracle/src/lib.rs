//! The oracle: answers to calls and jobs by documents 01 and 02, with the layout made by the original Rust source.
//!
//! `answers::answer` answers a call, `map::answer` one that maps its tokens, `words::answer` a word, `job::printed` a job,
//! `report::report` a book of jobs, and `cases::make` makes inputs for all.

pub mod answers;
pub mod arms;
pub mod builder;
pub mod cases;
pub mod coverage;
pub mod edit;
pub mod job;
pub mod kinds;
pub mod map;
pub mod masking;
pub mod random;
pub mod report;
pub mod source;
pub mod stored;
pub mod tape;
pub mod text;
pub mod words;

// The source's own modules lexer, parser and formatter; nothing where it is not at hand.
include!(concat!(env!("OUT_DIR"), "/source.rs"));
