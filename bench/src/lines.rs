//! The reader: the archive `bench_c`, and texts to time it on.

pub mod archive;
pub mod make;

/// Bytes that a text of the format has at most.
pub const LONGEST: usize = 32_768;

/// Brackets that the line format allows.
pub const DEPTH: usize = 32;

/// What the reader says of a text.
#[derive(Clone, Copy, Debug, PartialEq, Eq)]
pub enum Answer {
    Formed,
    Refused { number: u32, line: u32 },
}
