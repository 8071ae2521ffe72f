//! Where the source writes each token: its own routines, compiled unchanged, walk a tree that notes which child it hands out, and write to
//! a context that notes for which token each write is. The bytes are written by the source's own context.
//!
//! The tree has to be another type than the source's, and the routines name it from the crate's root: hence a crate of its own.

#[cfg(has_source)]
mod context;
#[cfg(has_source)]
mod record;
#[cfg(has_source)]
pub mod tree;

#[cfg(has_source)]
pub use record::{Recorded, Recorder};

// The source's own modules; nothing where it is not at hand.
include!(concat!(env!("OUT_DIR"), "/source.rs"));
