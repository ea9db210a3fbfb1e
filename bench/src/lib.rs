//! The archives of the proved crates, called from Rust, beside the Rust that they were written after.
//!
//! A module for each part that is timed, and `timing`, which they share.
pub mod check;
pub mod consteval;
pub mod graph;
pub mod lines;
pub mod timing;
