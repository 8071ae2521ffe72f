//! Calls of the proved functions: those of the static library that scripts/static_libraries.sh writes.

pub mod compare;
pub mod corpora;
pub mod rounds;
pub mod search;

/// Whether the library was at hand when this crate was built.
pub const AT_HAND: bool = cfg!(has_library);

/// What to do where it was not.
pub const HINT: &str = "no target/staticlib/libqdesk.a in the repository: run `sh scripts/static_libraries.sh` there";

/// The library's functions, declared once: the file is the crate qdesk's own, so that what holds here holds of its calls.
#[cfg(has_library)]
#[path = "../../qdesk/src/ffi.rs"]
mod library;

#[cfg(has_library)]
mod present {
    use super::library;
    use oracle::answers::Answer;
    use oracle::job::BUFFER;

    /// The port's laying out.
    pub fn layout(text: &[u8], tape: &[u8], width: u64, case: u64, out: &mut [u8]) -> Answer {
        answer(library::layout(text, tape, width, case, out))
    }

    /// The port's laying out with a map.
    pub fn layout_map(text: &[u8], tape: &[u8], width: u64, case: u64, out: &mut [u8], map: &mut [u64]) -> Answer {
        answer(library::layout_map(text, tape, width, case, out, map))
    }

    /// What the port says of a word.
    pub fn word(word: &[u8]) -> Answer {
        answer(library::word(word))
    }

    /// The port's report over a book.
    pub fn report(book: &[u8], more: u64, tally: &mut [u64; 4], work: &mut [u8; BUFFER], out: &mut [u8]) -> usize {
        library::report(book, more, tally, work, out)
    }

    fn answer(given: library::Answer) -> Answer {
        Answer { number: given.number, second: given.value }
    }
}

#[cfg(has_library)]
pub use present::*;

/// The same names where the library is not at hand: every call ends with the hint.
#[cfg(not(has_library))]
mod absent {
    use super::HINT;
    use oracle::answers::Answer;
    use oracle::job::BUFFER;

    pub fn layout(_text: &[u8], _tape: &[u8], _width: u64, _case: u64, _out: &mut [u8]) -> Answer {
        panic!("{HINT}")
    }

    pub fn layout_map(_: &[u8], _: &[u8], _width: u64, _case: u64, _out: &mut [u8], _map: &mut [u64]) -> Answer {
        panic!("{HINT}")
    }

    pub fn word(_word: &[u8]) -> Answer {
        panic!("{HINT}")
    }

    pub fn report(_book: &[u8], _more: u64, _tally: &mut [u64; 4], _work: &mut [u8; BUFFER], _out: &mut [u8]) -> usize {
        panic!("{HINT}")
    }
}

#[cfg(not(has_library))]
pub use absent::*;

/// Whether the port can be compared with the source; the error says what is missing.
pub fn all_at_hand() -> Result<(), String> {
    let needed = [(AT_HAND, HINT), (oracle::source::AT_HAND, oracle::source::HINT)];
    needed.iter().try_for_each(|(at_hand, hint)| if *at_hand { Ok(()) } else { Err(hint.to_string()) })
}

/// The middle one of the times.
pub fn median(mut times: Vec<f64>) -> f64 {
    times.sort_by(f64::total_cmp);
    times[times.len() / 2]
}
