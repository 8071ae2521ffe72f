//! Every fault of a form is told with its line and column, and every fault of a job's header with its byte.

use job_text::{parse, print};

#[track_caller]
fn assert_fault(form: &str, message: &str) {
    assert_eq!(parse(form.as_bytes()).unwrap_err().to_string(), message);
}

/// The fault of a tree whose first line is the form's third.
#[track_caller]
fn assert_tree_fault(tree: &str, message: &str) {
    assert_fault(&format!("width 4\ncase upper\n{tree}"), message);
}

#[test]
fn settings() {
    assert_fault("", "line 1, column 1: expected width");
    assert_fault("\n\n", "line 3, column 1: expected width");
    assert_fault("  case upper\n", "line 1, column 3: expected width");
    assert_fault("width\n", "line 1, column 6: expected a number from 0 to 255");
    assert_fault("width 256\n", "line 1, column 7: expected a number from 0 to 255");
    assert_fault("width -1\n", "line 1, column 7: expected a number from 0 to 255");
    assert_fault("width +1\n", "line 1, column 7: expected a number from 0 to 255");
    assert_fault("width 4 5\n", "line 1, column 9: nothing more is expected in this line");
    assert_fault("width 4\n", "line 2, column 1: expected case");
    assert_fault("width 4", "line 2, column 1: expected case");
    assert_fault("width 4\n\nFile\n", "line 3, column 1: expected case");
    assert_fault("width 4\ncase Upper\n", "line 2, column 6: expected upper, lower or a number from 0 to 255");
    assert_fault("width 4\ncase 256\n", "line 2, column 6: expected upper, lower or a number from 0 to 255");
    assert_fault("width 4\ncase\n", "line 2, column 5: expected upper, lower or a number from 0 to 255");
    assert_fault("width 4\ncase upper lower\n", "line 2, column 12: nothing more is expected in this line");
    assert_fault("width 4\ncase 1 lower\n", "line 2, column 8: nothing more is expected in this line");
}

#[test]
fn the_text() {
    assert_tree_fault("text\n", "line 3, column 5: expected a quoted text");
    assert_tree_fault("text abc\n", "line 3, column 6: expected a quoted text");
    assert_tree_fault("text \"a\" \"b\"\n", "line 3, column 10: nothing more is expected in this line");
    assert_tree_fault("File\n  text \"a\"\n", "line 4, column 3: no kind is named text");
}

#[test]
fn kinds() {
    assert_tree_fault("Fil\n", "line 3, column 1: no kind is named Fil");
    assert_tree_fault("File\n  bareword \"a\"\n", "line 4, column 3: no kind is named bareword");
    assert_tree_fault("\"a\"\n", "line 3, column 1: expected a kind");
    assert_tree_fault("token\n", "line 3, column 6: expected a kind");
    assert_tree_fault("token Fil 0 to 1\n", "line 3, column 7: no kind is named Fil");
    assert_tree_fault("kind\n", "line 3, column 5: expected a number from 0 to 65535");
    assert_tree_fault("kind 65536\n", "line 3, column 6: expected a number from 0 to 65535");
    assert_tree_fault("kind File\n", "line 3, column 6: expected a number from 0 to 65535");
}

#[test]
fn quotes() {
    let escape = r#"an escape is \n, \t, \r, \\, \", \x with two hexadecimal digits or \u{} with a character's number in hexadecimal digits"#;
    assert_tree_fault("BareWord \"a\n", "line 3, column 10: this quote is not closed");
    assert_tree_fault("BareWord \"a\\\"\n", "line 3, column 10: this quote is not closed");
    assert_tree_fault("BareWord \"\n", "line 3, column 10: this quote is not closed");
    assert_tree_fault("BareWord \"a\\q\"\n", &format!("line 3, column 12: {escape}"));
    assert_tree_fault("BareWord \"a\\", &format!("line 3, column 12: {escape}"));
    assert_tree_fault("BareWord \"\\x1\"\n", &format!("line 3, column 11: {escape}"));
    assert_tree_fault("BareWord \"\\x\"\n", &format!("line 3, column 11: {escape}"));
    assert_tree_fault("BareWord \"\\xG0\"\n", &format!("line 3, column 11: {escape}"));
    assert_tree_fault("text \"ab\\z\"\n", &format!("line 3, column 9: {escape}"));
    for character in ["\\u", "\\uE9", "\\u{", "\\u{}", "\\u{E9", "\\u{G}", "\\u{+41}", "\\u{ E9}", "\\u{0000E9 }"] {
        assert_tree_fault(&format!("BareWord \"{character}\"\n"), &format!("line 3, column 11: {escape}"));
    }
    // A surrogate, a number past the last character's, seven digits.
    for number in ["D800", "DFFF", "110000", "00000E9"] {
        assert_tree_fault(&format!("BareWord \"\\u{{{number}}}\"\n"), &format!("line 3, column 11: {escape}"));
    }
}

#[test]
fn what_cannot_be_seen() {
    let message = "can't stand here; a quoted text has it as an escape";
    assert_tree_fault("File\tx\n", &format!("line 3, column 5: byte 09 {message}"));
    assert_tree_fault("File\r \n", &format!("line 3, column 5: byte 0D {message}"));
    assert_tree_fault("File \x7f", &format!("line 3, column 6: byte 7F {message}"));
    assert_tree_fault("File\u{A0}", &format!("line 3, column 5: character U+00A0 {message}"));
    for character in ['\u{85}', '\u{AD}', '\u{200B}', '\u{202E}', '\u{2066}', '\u{3000}', '\u{FEFF}', '\u{E0020}'] {
        let number = u32::from(character);
        let fault = format!("line 4, column 15: character U+{number:04X} {message}");
        assert_tree_fault(&format!("File\n  BareWord \"é{character}\"\n"), &fault);
    }
}

#[test]
fn bytes_that_are_no_character() {
    let message = "can't stand here; a quoted text has it as an escape";
    for (bytes, place, byte) in [(&b"\xE9"[..], 1, "E9"), (b"\xC3\xA9\x80", 3, "80"), (b"\xED\xA0\x80", 1, "ED")] {
        let form = [b"width 4\ncase upper\n\"", bytes, b"\"\n"].concat();
        let fault = format!("line 3, column {}: byte {byte} {message}", place + 1);
        assert_eq!(parse(&form).unwrap_err().to_string(), fault);
    }
    let both = "width 4\ncase upper\nFile \u{200B}".bytes().chain([0xFF]).collect::<Vec<u8>>();
    assert_eq!(parse(&both).unwrap_err().to_string(), format!("line 3, column 6: character U+200B {message}"));
}

/// Columns count bytes.
#[test]
fn places_behind_letters_of_several_bytes() {
    assert_tree_fault("BareWord \"é\" x\n", "line 3, column 15: nothing more is expected in this line");
    assert_tree_fault("Größe\n", "line 3, column 1: no kind is named Größe");
    let other = "the text above the tree has";
    assert_tree_fault("text \"éb\"\nNumber \"è\"\n", &format!("line 4, column 8: {other} \"é\" from 0 to 2"));
    assert_tree_fault("text \"éb\"\nNumber \"a\"\n", &format!("line 4, column 8: {other} \"\\xC3\" from 0 to 1"));
}

#[test]
fn spans_of_nodes() {
    let number = "expected a number from 0 to 4294967295";
    assert_tree_fault("File x\n", "line 3, column 6: expected a quoted text or a span");
    assert_tree_fault("File\n  BareWord a\n", "line 4, column 12: expected a quoted text or a span");
    assert_tree_fault("File 'a'\n", "line 3, column 6: expected a quoted text or a span");
    assert_tree_fault("File -1 to 3\n", "line 3, column 6: expected a quoted text or a span");
    assert_tree_fault("File 0x to 3\n", &format!("line 3, column 6: {number}"));
    assert_tree_fault("File 4294967296 to 0\n", &format!("line 3, column 6: {number}"));
    assert_tree_fault("File 0\n", "line 3, column 7: expected to");
    assert_tree_fault("File 0 2\n", "line 3, column 8: expected to");
    assert_tree_fault("File 0 to\n", &format!("line 3, column 10: {number}"));
    assert_tree_fault("File 0 to -1\n", &format!("line 3, column 11: {number}"));
    assert_tree_fault("File 0 to 1 2\n", "line 3, column 13: nothing more is expected in this line");
    assert_tree_fault("token File\n", &format!("line 3, column 11: {number}"));
    assert_tree_fault("token File \"a\"\n", &format!("line 3, column 12: {number}"));
}

#[test]
fn places_of_tokens() {
    let number = "expected a number from 0 to 4294967295";
    assert_tree_fault("BareWord \"a\" at 0\n", "line 3, column 14: at needs the text above the tree");
    assert_tree_fault("BareWord \"a\" 0\n", "line 3, column 14: nothing more is expected in this line");
    assert_tree_fault("text \"ab\"\nBareWord \"a\" at\n", &format!("line 4, column 16: {number}"));
    assert_tree_fault("text \"ab\"\nBareWord \"a\" at b\n", &format!("line 4, column 17: {number}"));
    assert_tree_fault(
        "text \"ab\"\nBareWord \"a\" at 0 1\n",
        "line 4, column 19: nothing more is expected in this line",
    );
    let other = "the text above the tree has";
    assert_tree_fault("text \"ab\"\nBareWord \"b\"\n", &format!("line 4, column 10: {other} \"a\" from 0 to 1"));
    assert_tree_fault(
        "text \"a\\n\"\nFile\n  BareWord \"a\" at 1\n",
        &format!("line 5, column 12: {other} \"\\n\" from 1 to 2"),
    );
    assert_tree_fault("text \"ab\"\nBareWord \"abc\"\n", &format!("line 4, column 10: {other} \"ab\" from 0 to 3"));
    assert_tree_fault("text \"ab\"\nBareWord \"\" at 3\n", &format!("line 4, column 10: {other} \"\" from 3 to 3"));
    assert_tree_fault(
        "text \"ab\"\nBareWord \"a\" at 4294967295\n",
        &format!("line 4, column 10: {other} \"\" from 4294967295 to 4294967296"),
    );
}

#[test]
fn indents() {
    let tab = "indent with blanks: a tab can't stand here";
    assert_tree_fault("\tFile\n", &format!("line 3, column 1: {tab}"));
    assert_tree_fault("File\n  \tBareWord \"a\"\n", &format!("line 4, column 3: {tab}"));
    assert_tree_fault("File\n BareWord \"a\"\n", "line 4, column 2: an indent is two blanks a level");
    assert_tree_fault("File\n   BareWord \"a\"\n", "line 4, column 4: an indent is two blanks a level");
    assert_tree_fault("  File\n", "line 3, column 3: indented too far: at most 0 blanks here");
    assert_tree_fault("File\n    File\n", "line 4, column 5: indented too far: at most 2 blanks here");
    assert_tree_fault(
        "File\n  BareWord \"a\"\n    BareWord \"b\"\n",
        "line 5, column 5: indented too far: at most 2 blanks here",
    );
}

#[test]
fn closes() {
    let message = "close stands at the margin alone; elsewhere the indent closes a node";
    assert_tree_fault("File\n  close\n", &format!("line 4, column 3: {message}"));
    assert_tree_fault("close 3\n", "line 3, column 7: nothing more is expected in this line");
}

#[test]
fn rests() {
    let bytes = "expected bytes of two hexadecimal digits each";
    assert_tree_fault("rest 4\n", &format!("line 3, column 6: {bytes}"));
    assert_tree_fault("rest 04 0405\n", &format!("line 3, column 9: {bytes}"));
    assert_tree_fault("rest 04 \"a\"\n", &format!("line 3, column 9: {bytes}"));
    assert_tree_fault("rest 0G\n", &format!("line 3, column 6: {bytes}"));
    let after = "only rest with the same indent may follow rest";
    assert_tree_fault("File\n  rest\nFile\n", &format!("line 5, column 1: {after}"));
    assert_tree_fault("File\n  rest 04\n  BareWord \"a\"\n", &format!("line 5, column 3: {after}"));
    assert_tree_fault("File\n  rest 04\nrest 05\n", &format!("line 5, column 1: {after}"));
    assert_tree_fault("File\n  rest 04\n    rest 05\n", &format!("line 5, column 5: {after}"));
}

#[test]
fn headers_of_jobs() {
    let job = [0x10, 4, 0x11, 1, 0x12, 1, 0, 0, 0, b'a'];
    assert!(print(&job).is_ok());
    for (length, message) in [
        (0, "byte 0: expected command 10 (hexadecimal) and the width"),
        (1, "byte 0: expected command 10 (hexadecimal) and the width"),
        (2, "byte 2: expected command 11 (hexadecimal) and the case"),
        (3, "byte 2: expected command 11 (hexadecimal) and the case"),
        (4, "byte 4: expected command 12 (hexadecimal), the text's length and that many bytes"),
        (8, "byte 4: expected command 12 (hexadecimal), the text's length and that many bytes"),
        (9, "byte 4: expected command 12 (hexadecimal), the text's length and that many bytes"),
    ] {
        assert_eq!(print(&job[..length]).unwrap_err().to_string(), message);
    }
    for place in [0, 2, 4] {
        let mut wrong = job;
        wrong[place] ^= 1;
        assert_eq!(print(&wrong).unwrap_err().place, place);
    }
}
