//! Stands in for ast/sync_prim_lower.rs of the source. The driver check never expands these;
//! only the name must be there for ast/mod.rs to hand on.

pub fn expand_sync_prims() {}
