//! What accepted calls write, and what they leave alone.

mod common;

use common::{example, nested_files, open, token, CLOSE, LAID_OUT, PLAIN};
use qdesk::{layout, layout_map_to_vec, layout_to_string, layout_to_vec, needed_length};
use qdesk::{Case, Kind, Refusal, Settings, MOST_BYTES, MOST_OPEN};

#[test]
fn the_examples_call_is_laid_out_in_both_cases() {
    let (text, tape) = (example::TEXT.as_bytes(), example::tape().unwrap());
    assert_eq!(layout_to_vec(text, &tape, PLAIN).unwrap(), LAID_OUT);
    let lower = Settings { indent_width: 0, case: Case::LOWER };
    assert_eq!(layout_to_vec(text, &tape, lower).unwrap(), b"select\na,\nb\nfrom t\n");
}

#[test]
fn a_str_becomes_a_string() {
    let tape = example::tape().unwrap();
    assert_eq!(layout_to_string(example::TEXT, &tape, PLAIN).unwrap().as_bytes(), LAID_OUT);
    let error = layout_to_string(example::TEXT, &tape[1..], PLAIN).unwrap_err();
    assert_eq!(Err(error), layout_to_vec(example::TEXT.as_bytes(), &tape[1..], PLAIN));
}

/// The layout of a text as one token that is no word.
fn one_token(text: &str) -> String {
    let end = text.len() as u32;
    let tape = [open(Kind::File, 0, end), token(Kind::StringToken, 0, end), CLOSE.to_vec()].concat();
    layout_to_string(text, &tape, PLAIN).unwrap()
}

#[test]
fn characters_of_every_length_are_written_as_they_stand() {
    for text in ["'é'", "'ЖЯ'", "'漢字'", "'😀'", "'e\u{301}'", "'\u{10FFFF}'", "ß"] {
        assert_eq!(one_token(text), format!("{text}\n"));
    }
}

#[test]
fn white_space_at_the_end_is_dropped_by_characters() {
    for white in ['\u{85}', '\u{A0}', '\u{1680}', '\u{2003}', '\u{2028}', '\u{202F}', '\u{3000}'] {
        assert_eq!(one_token(&format!("a{white}{white}")), "a\n", "{white:?}");
    }
    for other in ['\u{84}', '\u{C5}', '\u{E0}', '\u{180E}', '\u{200B}', '\u{2060}', '\u{FEFF}'] {
        assert_eq!(one_token(&format!("a{other}")), format!("a{other}\n"), "{other:?}");
    }
}

#[test]
fn bytes_after_the_layout_stay() {
    let (text, tape) = (example::TEXT.as_bytes(), example::tape().unwrap());
    let mut space = [0xEE; 30];
    assert_eq!(layout(text, &tape, PLAIN, &mut space), Ok(27));
    assert_eq!(&space[..27], LAID_OUT);
    assert_eq!(space[27..], [0xEE; 3]);
}

#[test]
fn a_space_of_just_the_length_is_enough() {
    let (text, tape) = (example::TEXT.as_bytes(), example::tape().unwrap());
    let mut space = [0xEE; 27];
    assert_eq!(layout(text, &tape, PLAIN, &mut space), Ok(27));
    assert_eq!(space, LAID_OUT);
}

#[test]
fn one_length_is_named_whatever_the_space() {
    let (text, tape) = (example::TEXT.as_bytes(), example::tape().unwrap());
    for length in 0..40 {
        let answer = layout(text, &tape, PLAIN, &mut vec![0xEE; length]);
        let expected = if length < 27 { Err((Refusal::SpaceTooShort, 27)) } else { Ok(27) };
        assert_eq!(answer.map_err(|error| (error.refusal(), error.place())), expected, "{length} bytes");
    }
}

/// The first space that is lent has twice the text's length and 64 bytes.
#[test]
fn layouts_longer_and_shorter_than_the_first_space_are_whole() {
    for sevens in [1, 64, 65, 66, 500] {
        let tokens = token(Kind::Number, 0, 1).repeat(sevens);
        let tape = [open(Kind::QualifiedName, 0, 1), tokens, CLOSE.to_vec()].concat();
        let laid_out = layout_to_vec(b"7", &tape, PLAIN).unwrap();
        assert_eq!(laid_out, [&b"7".repeat(sevens)[..], b"\n"].concat());
        assert_eq!((laid_out.len(), laid_out.capacity()), (sevens + 1, sevens + 1));
        assert_eq!(needed_length(b"7", &tape, PLAIN), Ok(sevens + 1));
    }
}

#[test]
fn an_empty_layout_needs_no_space() {
    let tape = nested_files(1);
    assert_eq!(needed_length(&[], &tape, PLAIN), Ok(0));
    assert_eq!(layout(&[], &tape, PLAIN, &mut []), Ok(0));
    assert_eq!(layout_to_vec(&[], &tape, PLAIN), Ok(Vec::new()));
}

#[test]
fn width_16_is_accepted() {
    let widest = Settings { indent_width: 16, ..PLAIN };
    let length = needed_length(example::TEXT.as_bytes(), &example::tape().unwrap(), widest);
    assert_eq!(length, Ok(LAID_OUT.len() + 2 * 12));
}

#[test]
fn a_text_of_262144_bytes_is_accepted() {
    let text = [b'x'; MOST_BYTES];
    let tape = [open(Kind::File, 0, 0), token(Kind::Number, 0, MOST_BYTES as u32), CLOSE.to_vec()].concat();
    assert_eq!(needed_length(&text, &tape, PLAIN), Ok(MOST_BYTES + 1));
}

/// include/qdesk.h promises that a stack of 128 KiB is enough. Here 112 are, with what Rust's thread takes.
#[test]
fn nodes_of_every_kind_64_deep_fit_the_stack_that_the_header_names() {
    let text = [&b"--select"[..], &[b'x'; 56]].concat();
    // Of every kind, a token that is a line comment and one that is a keyword.
    let tokens: Vec<u8> =
        Kind::ALL.iter().flat_map(|kind| [token(*kind, 0, 64), token(*kind, 2, 8)].concat()).collect();
    let every_kind = move || {
        for kind in Kind::ALL.iter().filter(|kind| kind.is_carried()) {
            // Tapes of up to 8,206 bytes have a smaller space on the stack than longer ones.
            for (rounds, is_short) in [(1, true), (2, false)] {
                let opens = open(*kind, 0, 64).repeat(MOST_OPEN);
                let tape = [opens, tokens.repeat(rounds), CLOSE.repeat(MOST_OPEN)].concat();
                assert_eq!(tape.len() <= 8_206, is_short);
                assert!(layout_to_vec(&text, &tape, PLAIN).is_ok(), "{kind:?}");
                assert!(layout_map_to_vec(&text, &tape, PLAIN).is_ok(), "{kind:?}");
            }
        }
    };
    std::thread::Builder::new().stack_size(112 * 1024).spawn(every_kind).unwrap().join().unwrap();
}
