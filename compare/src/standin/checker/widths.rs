//! Stands in for `default_binding` of checker/widths/mod.rs of the source.

use super::Checker;
use crate::ast::Module;

impl<'a> Checker<'a> {
    /// The source binds each parameter to its default value and gives none as soon as one has no
    /// default. Modules here have no parameters, or one without a default.
    pub(super) fn default_binding(
        &mut self,
        _file: usize,
        module: &'a Module,
        _report: bool,
    ) -> Option<Vec<(String, i128)>> {
        module.params.is_empty().then(Vec::new)
    }
}
