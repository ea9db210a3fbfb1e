//! Stands in for ast/sync_loop_lower.rs of the source. The driver check never lowers a sync loop;
//! only the name must be there for ast/mod.rs to hand on.

pub fn lower_sync_loop() {}
