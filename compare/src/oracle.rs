//! The Rust driver check of min-mozhi as an oracle for texts of the line format.
//!
//! Each module of a text becomes a file of its own, its `val` lines that file's constants, its
//! `kind` lines the module's scope. The check runs once over all files, and its diagnostics are
//! turned back into report lines. Limits of the line format are not enforced. Where the check
//! itself goes by hash order (conflicts at one START, walks over equal STARTs), so do the lines.

mod build;
pub mod fields;
mod report;
mod sexp;

use std::time::Duration;

use mimz::checker::{self, Project};

/// A text as the syntax trees that the check works on.
pub struct Prepared {
    project: Project,
}

/// Reads a text; the error is one line.
pub fn prepare(text: &[u8]) -> Result<Prepared, String> {
    build::project(text).map(|project| Prepared { project })
}

impl Prepared {
    /// The report lines, in order, without line feeds.
    pub fn run(&self) -> Vec<String> {
        self.run_timed().0
    }

    /// The report lines, and the time that the check alone took, without setting up and rendering.
    pub fn run_timed(&self) -> (Vec<String>, Duration) {
        let (diags, time) = checker::check_drivers(&self.project);
        (diags.iter().map(report::line).collect(), time)
    }
}

/// The report lines of a text, in order, without line feeds; the error is one line.
pub fn check(text: &[u8]) -> Result<Vec<String>, String> {
    Ok(prepare(text)?.run())
}
