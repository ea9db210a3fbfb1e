//! Stands in for checker/names/items.rs of the source. Names are resolved before a text is
//! written, so none of this runs.

use super::Scope;
use crate::ast::ModuleItem;
use crate::checker::Checker;
use crate::checker::consteval::Env;

impl<'a> Checker<'a> {
    pub(super) fn walk_items(
        &mut self,
        _file: usize,
        _scope: &Scope<'a>,
        _env: &mut Env,
        _items: &'a [ModuleItem],
    ) {
    }
}
