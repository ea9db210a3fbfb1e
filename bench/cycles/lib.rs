//! The original's `find_cycles` on plain graphs. `build.rs` lays its unchanged source and the
//! stand-ins of `compare` out as one tree; `face.rs` is the way in.

// The source is a part of a larger program: much of it is not called here.
#![allow(dead_code, unused_imports, unfulfilled_lint_expectations)]

include!(concat!(env!("OUT_DIR"), "/mimz/root.rs"));
