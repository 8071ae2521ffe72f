//! What the tests share: settings, the example's call, and commands that the builder would refuse.

#![allow(dead_code)]

use qdesk::{Case, Kind, Settings};

#[path = "../../examples/layout.rs"]
pub mod example;

/// Width 4, upper case.
pub const PLAIN: Settings = Settings { indent_width: 4, case: Case::UPPER };

/// The layout of the example's call.
pub const LAID_OUT: &[u8] = b"SELECT\n    a,\n    b\nFROM t\n";

pub const CLOSE: [u8; 1] = [3];

/// An open command, whatever its operands.
pub fn open(kind: impl Into<u16>, start: u32, end: u32) -> Vec<u8> {
    spanned(1, kind.into(), start, end)
}

/// A token command, whatever its operands.
pub fn token(kind: impl Into<u16>, start: u32, end: u32) -> Vec<u8> {
    spanned(2, kind.into(), start, end)
}

fn spanned(command: u8, kind: u16, start: u32, end: u32) -> Vec<u8> {
    [&[command][..], &kind.to_le_bytes(), &start.to_le_bytes(), &end.to_le_bytes()].concat()
}

/// Nodes of kind File over 0 to 0, one in another.
pub fn nested_files(levels: usize) -> Vec<u8> {
    [open(Kind::File, 0, 0).repeat(levels), CLOSE.repeat(levels)].concat()
}
