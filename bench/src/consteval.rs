//! The evaluator: the archive `bench_c`, the original and exact arithmetic, with one kind of
//! answer for the three.

pub mod archive;
pub mod exact;
pub mod make;
pub mod names;
pub mod original;
pub mod read;
pub mod tree;

/// The ends of INT.
pub const INT_MIN: i128 = -2_147_483_648;
pub const INT_MAX: i128 = 2_147_483_647;

/// Brackets that the line format allows.
pub const DEPTH: u32 = 32;

/// The value of an expression, none, or one outside INT on the way.
#[derive(Clone, Copy, Debug, PartialEq, Eq)]
pub enum Answer {
    Known(i64),
    Missing,
    Outside,
}

pub fn inside(v: i128) -> bool {
    (INT_MIN..=INT_MAX).contains(&v)
}
