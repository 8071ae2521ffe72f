//! A program of target/bin, which scripts/programs.sh writes, on standard input.

use std::io::Write;
use std::path::PathBuf;
use std::process::{Command, Stdio};

/// What the program prints for the input.
pub fn printed(name: &str, input: &[u8]) -> Vec<u8> {
    let program = PathBuf::from(env!("CARGO_MANIFEST_DIR")).join("../../target/bin").join(name);
    assert!(
        program.is_file(),
        "target/bin/{name} is not at hand: run `sh scripts/programs.sh {name}` in the repository"
    );
    let mut child =
        Command::new(program).stdin(Stdio::piped()).stdout(Stdio::piped()).spawn().expect("the program starts");
    // The program reads no more than it has room for; what it leaves in the pipe is no fault.
    let _ = child.stdin.take().expect("a pipe").write_all(input);
    let output = child.wait_with_output().expect("the program ends");
    assert!(output.status.success(), "status {}", output.status);
    output.stdout
}
