// Stands in for lib.rs of the source: only the modules that the driver check needs.

pub mod ast;
pub mod bits;
pub mod checker;
pub mod diag;
pub mod span;
pub mod wide;
pub mod width_rules;
