//! Prints how many bytes of stack the calls take for trees of 64 levels: laying out in no output space and in enough, the map call, and the
//! report over a book of one job.

use command_line::{Failure, Program};
use oracle::answers::{Answer, Case};
use oracle::job::{self, BUFFER};
use oracle::kinds::{self, COUNT};
use oracle::report::write;
use oracle::tape::{push_close, push_open, push_token};
use std::io::{self, Write};
use std::process::ExitCode;

const USAGE: &str = "usage: stack   prints the bytes of stack that laying out, in no space and in enough, the map call and the report take at
               64 levels; takes no argument";

const LEVELS: usize = 64;

/// A token from 0 to 64 is a line comment, one from 2 to 8 a keyword.
const TEXT: &[u8; 64] = b"--select xxxxxxxxxxxxxxxxxxxxxxxxxxxxxxxxxxxxxxxxxxxxxxxxxxxxxxx";

/// The kind that is walked even where a child is an Error node.
const QUERY_LIST: u16 = 2;

/// The stack that a call is given here, and what it holds before.
const STACK: usize = 512 * 1024;
const PAINT: u8 = 0xA5;

const PROGRAM: Program = Program { name: "stack", version: env!("CARGO_PKG_VERSION"), usage: USAGE };

fn main() -> ExitCode {
    PROGRAM.run(|arguments, out| {
        arguments.is_empty().then_some(()).ok_or(Failure::BadCall)?;
        bench::AT_HAND.then_some(()).ok_or(bench::HINT.to_string())?;
        Ok(print_stack(out)?)
    })
}

fn print_stack(out: &mut dyn Write) -> io::Result<()> {
    writeln!(out, "{:<8} {:>10} {:>14}", "call", "tape bytes", "bytes of stack")?;
    let mut space = vec![0; 1 << 20];
    let mut map = vec![0; 1 << 12];
    for rounds in [1, 2] {
        let tapes = tapes(rounds);
        print_most(out, "no space", &tapes, |tape| bench::layout(TEXT, tape, 4, 1, &mut []))?;
        print_most(out, "layout", &tapes, |tape| bench::layout(TEXT, tape, 4, 1, &mut space))?;
        print_most(out, "map", &tapes, |tape| bench::layout_map(TEXT, tape, 4, 1, &mut space, &mut map))?;
        let mut work = Box::new([0; BUFFER]);
        print_most(out, "report", &tapes, |tape| reported(tape, &mut work, &mut space))?;
    }
    Ok(())
}

/// The report over a book of one job: how many are refused, and how many bytes are put.
fn reported(tape: &[u8], work: &mut [u8; BUFFER], space: &mut [u8]) -> Answer {
    let call = Case { text: TEXT.to_vec(), tape: tape.to_vec(), width: 4, case: 1, space: Vec::new() };
    let mut tally = [0; 4];
    let put = bench::report(&write(&[job::write(&call)]), 0, &mut tally, work, space);
    Answer { number: tally[1], second: put as u64 }
}

/// For each carried kind, 64 levels of it, and 63 levels of QueryList around one. The innermost node has tokens of every kind, so many times.
fn tapes(rounds: usize) -> Vec<Vec<u8>> {
    let carried = (0..COUNT).filter(|kind| kinds::is_carried(*kind));
    carried.flat_map(|kind| [tape(kind, kind, rounds), tape(QUERY_LIST, kind, rounds)]).collect()
}

fn tape(outer: u16, inner: u16, rounds: usize) -> Vec<u8> {
    let mut tape = Vec::new();
    (1..LEVELS).for_each(|_| push_open(&mut tape, outer, 0, 64));
    push_open(&mut tape, inner, 0, 64);
    for kind in (0..rounds).flat_map(|_| 0..COUNT) {
        push_token(&mut tape, kind, 0, 64);
        push_token(&mut tape, kind, 2, 8);
    }
    (0..LEVELS).for_each(|_| push_close(&mut tape));
    tape
}

fn print_most(
    out: &mut dyn Write,
    name: &str,
    tapes: &[Vec<u8>],
    mut call: impl FnMut(&[u8]) -> Answer,
) -> io::Result<()> {
    let mut most = 0;
    for tape in tapes {
        let mut answer = None;
        most = most.max(used(&mut || answer = Some(call(tape))));
        assert!(answer.is_some_and(|answer| [0, 13].contains(&answer.number)));
    }
    writeln!(out, "{name:<8} {:>10} {most:>14}", tapes[0].len())
}

/// The bytes of stack that the call takes, with the Rust around it: it runs on a stack of its own, and the lowest byte that changes tells.
fn used(mut call: &mut dyn FnMut()) -> usize {
    extern "C" fn run(call: &mut &mut dyn FnMut()) {
        call()
    }
    let mut stack = vec![PAINT; STACK];
    let top = stack.as_mut_ptr_range().end;
    let top = top.wrapping_sub(top as usize % 16);
    // SAFETY: the stack is valid for writes and long enough, `run` gives r12 back as it was, and the call does not panic.
    #[cfg(target_arch = "x86_64")]
    unsafe {
        std::arch::asm!(
            "xchg rsp, r12",
            "call {run}",
            "mov rsp, r12",
            run = sym run,
            inout("r12") top => _,
            in("rdi") &mut call,
            clobber_abi("C"),
        );
    }
    let lowest = stack.iter().position(|byte| *byte != PAINT);
    STACK - lowest.expect("a call of the library, which is for x86-64, takes some")
}
