//! Stands in for checker/names/exprs.rs of the source: nothing that names/mod.rs calls is in it.
