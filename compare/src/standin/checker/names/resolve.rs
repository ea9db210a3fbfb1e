//! Stands in for checker/names/resolve.rs of the source. Names are resolved before a text is
//! written, so none of this runs.

use super::Scope;
use crate::ast::Type;
use crate::checker::Checker;
use crate::checker::consteval::Env;
use crate::span::Span;

impl<'a> Checker<'a> {
    pub(super) fn ty(&mut self, _file: usize, _scope: &Scope<'a>, _env: &Env, _ty: &'a Type) {}

    pub(super) fn validate_bundle_field_type(&mut self, _file: usize, _ty: &'a Type, _span: Span) {}
}
