//! The driver check of min-mozhi: nine unchanged source files, and stand-ins for what they miss.
//! `build.rs` lays both out as one tree, whose root is taken in here.

// The source is a part of a larger program: much of it is not called here.
#![allow(dead_code, unused_imports, unfulfilled_lint_expectations)]

include!(concat!(env!("OUT_DIR"), "/mimz/root.rs"));
