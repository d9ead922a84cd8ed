//! Stand-in for the printing of names, which the listing leaves out.

use hir_def::ExpressionStoreOwnerId;
use hir_def::base::Crate;
use hir_def::expr_store::ExpressionStore;
use hir_def::expr_store::path::Path;

use crate::db::HirDatabase;

#[derive(Debug, Clone, Copy, PartialEq, Eq)]
pub struct DisplayTarget;

impl DisplayTarget {
    pub fn from_crate(_: &dyn HirDatabase, _: Crate) -> Self {
        DisplayTarget
    }
}

pub struct Displayed;

impl Displayed {
    pub fn display(&self, _: &dyn HirDatabase, _: DisplayTarget) -> &'static str {
        "a path"
    }
}

pub fn hir_display_with_store(_: &Path, _: ExpressionStoreOwnerId, _: &ExpressionStore) -> Displayed {
    Displayed
}
