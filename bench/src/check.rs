//! The whole check: the archive of `drivers_c`, what it is held against, and designs to time it on.

pub mod archive;
pub mod hold;
pub mod make;
