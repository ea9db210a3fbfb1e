//! The Rust driver check of min-mozhi, run on texts of the line format, and what is held against it.
pub mod cases;
pub mod compare;
pub mod gen;
pub mod oracle;
pub use model;
