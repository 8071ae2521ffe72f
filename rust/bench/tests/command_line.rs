//! The programs: what holds of every one, and that a bad call gets the usage and status 2.

use command_line::rules;

const COMPARE: &str = env!("CARGO_BIN_EXE_compare");
const FORMAT: &str = env!("CARGO_BIN_EXE_format");
const PROGRAMS: [(&str, &str); 6] = [
    (COMPARE, "compare"),
    (FORMAT, "format"),
    (env!("CARGO_BIN_EXE_keywords"), "keywords"),
    (env!("CARGO_BIN_EXE_map"), "map"),
    (env!("CARGO_BIN_EXE_reports"), "reports"),
    (env!("CARGO_BIN_EXE_stack"), "stack"),
];

#[test]
fn what_holds_of_every_program() {
    for (program, name) in PROGRAMS {
        rules::assert_kept(program, name);
    }
}

#[test]
fn a_bad_call_gets_the_usage_and_status_2() {
    for (program, name) in PROGRAMS {
        let printed = rules::run(program, &["no", "call"], b"");
        assert_eq!(printed.status.code(), Some(2), "{name}");
        assert!(printed.stderr.starts_with(format!("{name}: usage: {name}").as_bytes()), "{name}");
        assert!(printed.stdout.is_empty(), "{name}");
    }
}

#[test]
fn output_that_is_lost_is_told() {
    if !oracle::source::at_hand_for("output_that_is_lost_is_told") {
        return;
    }
    rules::assert_output_kept(COMPARE, "compare", &["1", "1", "small"], b"");
    rules::assert_output_kept(FORMAT, "format", &["--list"], b"");
}

/// What `compare` prints for this call, which must agree.
fn compared(arguments: &[&str]) -> String {
    let printed = rules::run(COMPARE, arguments, b"");
    assert!(printed.status.success(), "{arguments:?}: {}", printed.stderr.escape_ascii());
    String::from_utf8(printed.stdout).unwrap()
}

#[test]
fn as_many_cases_are_compared_as_the_call_says() {
    if !oracle::source::at_hand_for("as_many_cases_are_compared_as_the_call_says") {
        return;
    }
    assert_eq!(compared(&["1", "3", "limits"]), "Limits: 3 cases agree\n");
    assert_eq!(compared(&["1", "3", "words"]), "Words: 3 cases agree\n");
    assert_eq!(compared(&["1", "3", "map-masked"]), "MapMasked: 3 cases agree\n");
    assert_eq!(compared(&["1", "2", "utf8-limits", "small"]), "Utf8Limits: 2 cases agree\nSmall: 2 cases agree\n");
    let all = compared(&["1", "2"]);
    assert_eq!(all.lines().count(), bench::compare::CLASSES.len());
    assert!(all.contains("Small: 2 cases agree\n") && all.contains("\nLimits: 1 cases agree\n"), "{all}");
    assert_eq!(rules::run(COMPARE, &["1", "0"], b"").status.code(), Some(2));
}
