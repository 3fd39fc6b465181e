//! The published Rust, unchanged, as a library whose inner functions a test
//! program can call. `build.rs` copies its files; this file and `frame.rs`
//! stand in for the two that were not published, and `api` is the way in.

#[cfg(published)]
mod frame;
#[cfg(published)]
include!(concat!(env!("OUT_DIR"), "/published/list.rs"));
#[cfg(published)]
pub mod api;

/// The error type of the unpublished `lib.rs`, with the variants that the
/// published files name.
#[derive(Clone, Copy, Debug, PartialEq, Eq)]
pub enum Error {
    InvalidDimensions { width: usize, height: usize },
    FrameSizeMismatch,
    InvalidFrame(&'static str),
    Unsupported(&'static str),
    Truncated,
    InvalidBitstream(&'static str),
    SliceCountMismatch { expected: usize, found: usize },
}
