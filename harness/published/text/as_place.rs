//! Stands in for as_place.rs, of which the lowering of patterns asks one thing, for Pat::Expr.

use super::{BasicBlockId, ExprId, MirLowerCtx, MirLowerError, Place, Result};

impl<'db> MirLowerCtx<'_, 'db> {
    /// No image has expressions that are places, so each is incomplete. The harness reports this
    /// error, which nothing else gives, as document 01's number 10.
    pub(super) fn lower_expr_as_place(
        &mut self,
        _: BasicBlockId,
        _: ExprId,
        _: bool,
    ) -> Result<'db, Option<(Place<'db>, BasicBlockId)>> {
        Err(MirLowerError::IncompleteExpr)
    }
}
