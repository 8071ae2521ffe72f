//! What every program of the workspace keeps to, for their tests.

use std::ffi::OsStr;
use std::io::Write;
use std::os::unix::ffi::OsStrExt;
use std::process::{Command, Output, Stdio};
use std::thread;
use std::time::Duration;

/// Runs the program with this input.
pub fn run(program: &str, arguments: &[&str], input: &[u8]) -> Output {
    let arguments: Vec<&OsStr> = arguments.iter().map(OsStr::new).collect();
    output(program, &arguments, input, Stdio::piped())
}

fn output(program: &str, arguments: &[&OsStr], input: &[u8], out: Stdio) -> Output {
    let mut child = Command::new(program)
        .args(arguments)
        .stdin(Stdio::piped())
        .stdout(out)
        .stderr(Stdio::piped())
        .spawn()
        .expect("the program starts");
    // A program that refuses its arguments may end before it reads.
    let _ = child.stdin.take().expect("a pipe").write_all(input);
    child.wait_with_output().expect("the program ends")
}

/// Asserts what holds of every program, whatever its work is.
#[track_caller]
pub fn assert_kept(program: &str, name: &str) {
    assert_help(program, name);
    assert_version(program, name);
    assert_not_utf8(program, name);
    assert_output_kept(program, name, &["--help"], b"");
}

#[track_caller]
fn assert_help(program: &str, name: &str) {
    let printed = run(program, &["--help"], b"");
    assert_eq!(printed.status.code(), Some(0), "{name} --help");
    assert!(printed.stdout.starts_with(format!("usage: {name}").as_bytes()), "{name} --help");
    assert!(printed.stderr.is_empty(), "{name} --help");
}

#[track_caller]
fn assert_version(program: &str, name: &str) {
    let printed = run(program, &["--version"], b"");
    assert_eq!(printed.status.code(), Some(0), "{name} --version");
    let printed = String::from_utf8(printed.stdout).expect("a text");
    let version = printed.strip_prefix(&format!("{name} ")).expect("the program's name first");
    assert!(version.trim_end().split('.').all(|part| part.parse::<u32>().is_ok()), "{name} --version");
}

#[track_caller]
fn assert_not_utf8(program: &str, name: &str) {
    let printed = output(program, &[OsStr::from_bytes(b"a\xFF")], b"", Stdio::piped());
    assert_eq!(printed.status.code(), Some(2), "{name}");
    assert_eq!(printed.stderr.escape_ascii().to_string(), format!(r#"{name}: argument 1 is not UTF-8: \"a\\xFF\"\n"#));
    assert!(printed.stdout.is_empty(), "{name}");
}

/// Asserts that the program says so where its output is lost: on a full device, and in a pipe that nobody reads.
#[track_caller]
pub fn assert_output_kept(program: &str, name: &str, arguments: &[&str], input: &[u8]) {
    let full = std::fs::File::create("/dev/full").expect("a device that takes nothing");
    for out in [Stdio::from(full), closed_pipe()] {
        let arguments: Vec<&OsStr> = arguments.iter().map(OsStr::new).collect();
        let printed = output(program, &arguments, input, out);
        let errors = String::from_utf8_lossy(&printed.stderr);
        assert_eq!(printed.status.code(), Some(1), "{name} {arguments:?}: {errors}");
        assert!(errors.starts_with(&format!("{name}: standard output can't be written: ")), "{arguments:?}: {errors}");
    }
}

/// A pipe that nobody reads. Its reader has ended, but a program that another test is starting holds its end until it runs, so a write is tried until it fails.
fn closed_pipe() -> Stdio {
    let mut reader = Command::new("true").stdin(Stdio::piped()).spawn().expect("a reader");
    let mut pipe = reader.stdin.take().expect("a pipe");
    reader.wait().expect("the reader ends");
    while pipe.write(b" ").is_ok() {
        thread::sleep(Duration::from_millis(1));
    }
    Stdio::from(pipe)
}
