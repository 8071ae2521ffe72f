//! The C functions of libqdesk.a, and all the unsafe code there is.

/// An answer as the library gives it: 0 and a length, or a refusal's number and its place; of a word its sort and its place in the list.
#[repr(C)]
pub struct Answer {
    pub number: u64,
    pub value: u64,
}

extern "C" {
    fn qdesk_layout(
        text: *const u8,
        text_length: usize,
        tape: *const u8,
        tape_length: usize,
        width: u64,
        case: u64,
        out: *mut u8,
        out_length: usize,
    ) -> Answer;

    fn qdesk_layout_map(
        text: *const u8,
        text_length: usize,
        tape: *const u8,
        tape_length: usize,
        width: u64,
        case: u64,
        out: *mut u8,
        out_length: usize,
        map: *mut u64,
        map_length: usize,
    ) -> Answer;

    fn qdesk_word(word: *const u8, word_length: usize) -> Answer;

    fn qdesk_report(
        book: *const u8,
        book_length: usize,
        more: u64,
        tally: *mut [u64; 4],
        work: *mut [u8; WORK],
        out: *mut u8,
        out_length: usize,
    ) -> usize;
}

/// Bytes of the space in which a report lays out each job.
pub const WORK: usize = 65_536;

pub fn layout(text: &[u8], tape: &[u8], width: u64, case: u64, out: &mut [u8]) -> Answer {
    let (text, text_length) = (text.as_ptr(), text.len());
    let (tape, tape_length) = (tape.as_ptr(), tape.len());
    let (out, out_length) = (out.as_mut_ptr(), out.len());
    // SAFETY: the function asks nothing of the bytes and numbers. All pointers come from slices, so they are valid for reads of their lengths
    // throughout the call, and `out` for writes; a slice lent mutably overlaps no other. The function keeps none.
    unsafe { qdesk_layout(text, text_length, tape, tape_length, width, case, out, out_length) }
}

pub fn layout_map(text: &[u8], tape: &[u8], width: u64, case: u64, out: &mut [u8], map: &mut [u64]) -> Answer {
    let (text, text_length) = (text.as_ptr(), text.len());
    let (tape, tape_length) = (tape.as_ptr(), tape.len());
    let (out, out_length) = (out.as_mut_ptr(), out.len());
    let (map, map_length) = (map.as_mut_ptr(), map.len());
    // SAFETY: as for laying out. `map` is valid for writes of as many numbers as its length says.
    unsafe { qdesk_layout_map(text, text_length, tape, tape_length, width, case, out, out_length, map, map_length) }
}

pub fn word(word: &[u8]) -> Answer {
    // SAFETY: as for laying out.
    unsafe { qdesk_word(word.as_ptr(), word.len()) }
}

pub fn report(book: &[u8], more: u64, tally: &mut [u64; 4], work: &mut [u8; WORK], out: &mut [u8]) -> usize {
    let (book, book_length) = (book.as_ptr(), book.len());
    let (out, out_length) = (out.as_mut_ptr(), out.len());
    // SAFETY: as for laying out. The tally and the working space are valid for reads and writes of their four numbers and 65,536 bytes,
    // which is what the function takes through the two pointers that come without a length.
    unsafe { qdesk_report(book, book_length, more, tally, work, out, out_length) }
}
