//! Stands in for checker/names/insts.rs of the source: nothing that names/mod.rs calls is in it.
