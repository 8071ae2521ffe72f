//! The readable form, case by case: what each part spells, and what the program writes for it.

use job_text::{kinds, parse, print};
use oracle::answers::Case;
use oracle::job::write;
use oracle::tape::{push_close, push_open, push_token};
use oracle::text::WHITE_SPACE;

const FILE: u16 = 1;

fn bare_word() -> u16 {
    kinds::number("BareWord").unwrap()
}

/// The bytes of a job of width 4 in upper case.
fn job(text: &[u8], fill: impl FnOnce(&mut Vec<u8>)) -> Vec<u8> {
    let mut tape = Vec::new();
    fill(&mut tape);
    write(&Case { text: text.to_vec(), tape, width: 4, case: 1, space: Vec::new() })
}

/// Checks both ways that the lines below the settings spell the job.
fn assert_spells(lines: &str, job: &[u8]) {
    let form = format!("width 4\ncase upper\n{lines}");
    assert_eq!(print(job).unwrap(), form);
    assert_eq!(parse(form.as_bytes()).unwrap(), job);
}

#[test]
fn the_documents_job() {
    let job = [0x10, 4, 0x11, 1, 0x12, 1, 0, 0, 0, 0x61, 1, 0, 0, 0, 0, 0, 0, 1, 0, 0, 0, 3];
    assert_spells("text \"a\"\n\nError 0 to 1\n", &job);
}

#[test]
fn spans_are_worked_out_from_the_tokens_texts() {
    let job = job(b"ab c", |tape| {
        push_open(tape, FILE, 0, 4);
        push_token(tape, bare_word(), 0, 2);
        push_open(tape, FILE, 2, 4);
        push_token(tape, kinds::number("Whitespace").unwrap(), 2, 3);
        push_token(tape, bare_word(), 3, 4);
        push_close(tape);
        push_open(tape, FILE, u32::MAX, 0);
        push_close(tape);
        push_close(tape);
    });
    assert_spells("\nFile\n  BareWord \"ab\"\n  File\n    Whitespace \" \"\n    BareWord \"c\"\n  File\n", &job);
}

#[test]
fn other_spans_of_nodes_are_given() {
    let job = job(b"ab", |tape| {
        push_open(tape, FILE, 2, 1);
        push_open(tape, FILE, 0, 0);
        push_close(tape);
        push_token(tape, bare_word(), 0, 2);
        push_close(tape);
    });
    assert_spells("\nFile 2 to 1\n  File 0 to 0\n  BareWord \"ab\"\n", &job);
}

#[test]
fn the_text_is_given_where_the_tokens_do_not_make_it() {
    let gap = job(b"a b", |tape| {
        push_open(tape, FILE, 0, 3);
        push_token(tape, bare_word(), 0, 1);
        push_token(tape, bare_word(), 2, 3);
        push_close(tape);
    });
    assert_spells("text \"a b\"\n\nFile\n  BareWord \"a\"\n  BareWord \"b\" at 2\n", &gap);
    let overlap = job(b"ab", |tape| {
        push_open(tape, FILE, 0, 2);
        push_token(tape, bare_word(), 0, 2);
        push_token(tape, bare_word(), 1, 2);
        push_close(tape);
    });
    assert_spells("text \"ab\"\n\nFile\n  BareWord \"ab\"\n  BareWord \"b\" at 1\n", &overlap);
    let uncovered = job(b"a\nb", |tape| {
        push_open(tape, FILE, 0, 1);
        push_token(tape, bare_word(), 0, 1);
        push_close(tape);
    });
    assert_spells("text \"a\\n\"\ntext \"b\"\n\nFile\n  BareWord \"a\"\n", &uncovered);
}

#[test]
fn a_token_that_has_no_text_is_named_so() {
    let past = job(b"", |tape| {
        push_open(tape, FILE, u32::MAX, 0);
        push_token(tape, bare_word(), 0, 1);
        push_close(tape);
    });
    assert_spells("text \"\"\n\nFile\n  token BareWord 0 to 1\n", &past);
    let backwards = job(b"ab", |tape| {
        push_open(tape, FILE, 0, 2);
        push_token(tape, bare_word(), 0, 2);
        push_token(tape, 300, 2, 1);
        push_token(tape, bare_word(), 2, 2);
        push_close(tape);
    });
    assert_spells("text \"ab\"\n\nFile\n  BareWord \"ab\"\n  token kind 300 2 to 1\n  BareWord \"\"\n", &backwards);
}

#[test]
fn an_unknown_kind_is_given_by_its_number() {
    let job = job(b"a", |tape| {
        push_open(tape, 258, 0, 1);
        push_token(tape, u16::MAX, 0, 1);
        push_open(tape, 1000, 0, 0);
        push_close(tape);
        push_close(tape);
    });
    assert_spells("\nkind 258\n  kind 65535 \"a\"\n  kind 1000 0 to 0\n", &job);
}

#[test]
fn what_stands_outside_the_root_is_at_the_margin() {
    let job = job(b"a", |tape| {
        push_close(tape);
        push_token(tape, bare_word(), 0, 1);
        push_open(tape, FILE, u32::MAX, 0);
        push_close(tape);
        push_close(tape);
        push_close(tape);
        push_open(tape, FILE, u32::MAX, 0);
        push_close(tape);
    });
    assert_spells("\nclose\nBareWord \"a\"\nFile\nclose\nclose\nFile\n", &job);
}

#[test]
fn rest_leaves_nodes_open() {
    let open = job(b"a", |tape| {
        push_open(tape, FILE, 0, 1);
        push_open(tape, FILE, 0, 1);
        push_token(tape, bare_word(), 0, 1);
        push_close(tape);
    });
    assert_spells("\nFile\n  File\n    BareWord \"a\"\n  rest\n", &open);
    let all_open = &open[..open.len() - 1];
    assert_spells("\nFile\n  File\n    BareWord \"a\"\n    rest\n", all_open);
}

#[test]
fn rest_has_the_bytes_that_are_no_command() {
    let wrong = job(b"", |tape| tape.extend(4..=20));
    assert_spells("\nrest 04 05 06 07 08 09 0A 0B 0C 0D 0E 0F 10 11 12 13\nrest 14\n", &wrong);
    let cut = job(b"", |tape| {
        push_open(tape, FILE, u32::MAX, 0);
        tape.extend([2, 0, 0]);
    });
    assert_spells("\nFile\n  rest 02 00 00\n", &cut);
}

#[test]
fn an_empty_tape_has_no_lines() {
    assert_spells("", &job(b"", |_| {}));
    assert_spells("text \"a\"\n", &job(b"a", |_| {}));
}

/// The form of a job with one token over the text, which comes back from it.
fn form_of(text: &[u8]) -> String {
    let bytes = job(text, |tape| {
        push_open(tape, FILE, 0, text.len() as u32);
        push_token(tape, bare_word(), 0, text.len() as u32);
        push_close(tape);
    });
    let form = print(&bytes).unwrap();
    assert_eq!(parse(form.as_bytes()).unwrap(), bytes);
    form
}

/// Checks how a text is quoted.
fn assert_quoted(text: &[u8], quoted: &str) {
    assert_eq!(form_of(text), format!("width 4\ncase upper\n\nFile\n  BareWord \"{quoted}\"\n"));
}

#[test]
fn every_byte_can_be_quoted() {
    let text: Vec<u8> = (0..=255).collect();
    let form = form_of(&text);
    assert!(form.bytes().all(|byte| byte == b'\n' || (b' '..=b'~').contains(&byte)));
    assert!(form.contains(r#""\x00\x01\x02\x03\x04\x05\x06\x07\x08\t\n\x0B\x0C\r\x0E"#));
    for part in ["\\x1F !\\\"#$%", "[\\\\]", "~\\x7F\\x80", "\\xFF\""] {
        assert!(form.contains(part), "{part}");
    }
}

#[test]
fn characters_that_can_be_seen_stand_as_they_are() {
    for text in
        ["Größe", "Завод №5", "温度", "공장", "مصنع", "कारखाना", "🏭📈", "‐—…“”«»", "\u{FFFD}", "e\u{301}\u{323}"]
    {
        assert_quoted(text.as_bytes(), text);
    }
}

#[test]
fn characters_that_cannot_be_seen_are_escaped() {
    for character in WHITE_SPACE.into_iter().filter(|character| !character.is_ascii()) {
        assert_quoted(format!("a{character}b").as_bytes(), &format!("a\\u{{{:X}}}b", u32::from(character)));
    }
    // Controls, formats, marks of direction, blank letters, variation selectors, private and unassigned characters.
    for (text, quoted) in [
        ("\u{80}\u{9F}", "\\u{80}\\u{9F}"),
        ("\u{AD}\u{61C}\u{180E}", "\\u{AD}\\u{61C}\\u{180E}"),
        ("a\u{200B}\u{200C}\u{200D}\u{200E}\u{200F}", "a\\u{200B}\\u{200C}\\u{200D}\\u{200E}\\u{200F}"),
        ("\u{202A}\u{202E}\u{2060}\u{2066}\u{2069}", "\\u{202A}\\u{202E}\\u{2060}\\u{2066}\\u{2069}"),
        ("a\u{34F}\u{115F}\u{2800}\u{3164}", "a\\u{34F}\\u{115F}\\u{2800}\\u{3164}"),
        ("❤\u{FE0F}字\u{E0100}", "❤\\u{FE0F}字\\u{E0100}"),
        ("\u{FEFF}\u{FFF9}\u{E0001}\u{E0020}", "\\u{FEFF}\\u{FFF9}\\u{E0001}\\u{E0020}"),
        ("\u{E000}\u{10FFFD}\u{378}\u{FFFF}\u{10FFFF}", "\\u{E000}\\u{10FFFD}\\u{378}\\u{FFFF}\\u{10FFFF}"),
    ] {
        assert_quoted(text.as_bytes(), quoted);
    }
}

/// It would join the quote or the escape.
#[test]
fn a_combining_mark_is_escaped_where_nothing_is_seen_before_it() {
    assert_quoted("\u{301}".as_bytes(), "\\u{301}");
    assert_quoted("\n\u{301}e\u{301}\"\u{301}".as_bytes(), "\\n\\u{301}e\u{301}\\\"\\u{301}");
    assert_quoted(b"\xFF\xCC\x81", "\\xFF\\u{301}");
}

#[test]
fn what_is_no_character_is_escaped_byte_by_byte() {
    for (text, quoted) in [
        (&b"\xC3"[..], "\\xC3"),
        (b"\xC3\xA9\xA9", "é\\xA9"),
        (b"\xE2\x82a", "\\xE2\\x82a"),
        (b"\xED\xA0\x80", "\\xED\\xA0\\x80"),
        (b"\xF4\x90\x80\x80", "\\xF4\\x90\\x80\\x80"),
        (b"\xC0\xAF\xF0\x9F\x98\x80", "\\xC0\\xAF😀"),
    ] {
        assert_quoted(text, quoted);
    }
}

#[test]
fn tokens_that_cut_a_character_have_its_bytes() {
    let job = job("é".as_bytes(), |tape| {
        push_open(tape, FILE, 0, 2);
        push_token(tape, bare_word(), 0, 1);
        push_token(tape, bare_word(), 1, 2);
        push_close(tape);
    });
    assert_spells("\nFile\n  BareWord \"\\xC3\"\n  BareWord \"\\xA9\"\n", &job);
}

#[test]
fn settings_of_any_byte() {
    for case in [0, 1, 2, 255] {
        let bytes = [0x10, 255, 0x11, case, 0x12, 0, 0, 0, 0];
        let name = ["lower", "upper"].get(usize::from(case)).map_or(case.to_string(), |name| name.to_string());
        let form = format!("width 255\ncase {name}\n");
        assert_eq!(print(&bytes).unwrap(), form);
        assert_eq!(parse(form.as_bytes()).unwrap(), bytes);
    }
}

/// What people may write otherwise than the program does.
#[test]
fn other_spellings_are_taken() {
    let written = parse(b"width 4\ncase upper\n\nFile\n  BareWord \"a\\n\"\n").unwrap();
    for form in [
        "width 4\ncase upper\nFile\n  BareWord \"a\\n\"",
        "\n\nwidth 4\n\ncase 1\n\n\nFile\n\n  BareWord \"a\\x0a\"\n\n",
        "width 4\r\ncase upper\r\n\r\nFile\r\n  BareWord \"a\\n\"\r\n",
        "width 004 \ncase  upper\nkind 1  \n  BareWord\"a\\x0A\"  \n",
        "width 4\ncase upper\ntext \"a\"\ntext \"\\n\"\nFile 0 to 2\n  BareWord \"a\\n\" at 0\n",
        "width 4\ncase upper\ntext \"a\\n\"\nFile\n  token BareWord 0 to 2\n",
        "width 4\ncase upper\nFile\n  BareWord \"a\\n\"\n  rest 03\n",
        "width 4\ncase upper\nFile\n  BareWord \"\\u{61}\\u{00000a}\"\n",
    ] {
        assert_eq!(parse(form.as_bytes()).unwrap(), written, "{form}");
    }
}

#[test]
fn a_character_may_be_typed_as_it_stands_by_its_number_or_by_its_bytes() {
    let written = parse("width 4\ncase upper\n\nFile\n  StringToken \"'é\u{301}'\"\n".as_bytes()).unwrap();
    for text in ["'\\u{e9}\u{301}'", "'\\u{0000E9}\\u{301}'", "'\\xC3\\xA9\\xcc\\x81'", "'\\xC3\\xa9\u{301}\\x27"] {
        let form = format!("width 4\ncase upper\nFile\n  StringToken \"{text}\"\n");
        assert_eq!(parse(form.as_bytes()).unwrap(), written, "{form}");
    }
}
