//! What the harness calls, under the names that mir.rs hands on from lower.rs. The published
//! `lower_to_mir_with_store` makes the context, local 0 and the bindings' locals, and lowers a
//! function's body; this one goes on with one pattern, as document 01's listing program does.

use std::panic::{self, AssertUnwindSafe};

use image::Tables;

use super::discriminants::part;
use super::replacements::replace;
use super::{
    BasicBlockId, BindingId, ExpressionStore, HirDatabase, InferBodyId, InferenceResult, Local, LocalId,
    MirBody, MirLowerCtx, PatId, Result, Ty,
};
use crate::answer::{Changed, Listed};
use crate::mir::pretty;
use crate::trace;

/// The body that is made of a pattern, and the two blocks that are returned.
pub struct LoweredPattern<'db> {
    pub body: MirBody<'db>,
    pub then: BasicBlockId,
    pub other: Option<BasicBlockId>,
}

impl LoweredPattern<'_> {
    /// Document 01's listing of the body as document 02 changes it, for the pattern that was walked
    /// from a whole local; with `contents` the memory of strings stands in it too.
    pub fn listing(mut self, db: &dyn HirDatabase, tables: &Tables, root: u16, contents: bool) -> Listed {
        let parted = part(&mut self.body, &mut []);
        self.replaced(db, tables, &[root], contents, parted)
    }

    /// The same of a body whose tests have their locals, and of several patterns.
    pub(super) fn replaced(
        mut self,
        db: &dyn HirDatabase,
        tables: &Tables,
        roots: &[u16],
        contents: bool,
        parted: bool,
    ) -> Listed {
        let replaced = replace(&mut self.body, tables, roots, 0);
        let text = pretty::listing(&self.body, self.then, self.other, db, contents);
        Listed { text, changed: Changed { replaced, parted, ..Changed::default() } }
    }
}

/// Lowers a pattern from block 0, no else, against local 0 of a type; the bindings' locals follow
/// it in order, and one scope is open, with so many entries of local 0. With `assigns` it is
/// `pattern_match_assignment` that does.
pub fn lower_to_mir_with_store<'db>(
    db: &'db dyn HirDatabase,
    store: &ExpressionStore,
    infer: &InferenceResult<'db>,
    place_type: Ty<'db>,
    pattern: PatId,
    assigns: bool,
    entries: usize,
) -> Result<'db, LoweredPattern<'db>> {
    let mut ctx = MirLowerCtx::new(db, InferBodyId::default(), store, infer);
    let place: LocalId = ctx.result.locals.alloc(Local { ty: place_type.store() });
    let bindings: Vec<BindingId> = store.bindings().map(|(binding, _)| binding).collect();
    for binding in bindings {
        let local = ctx.result.locals.alloc(Local { ty: infer.binding_ty(binding).store() });
        ctx.result.binding_locals.insert(binding, local);
    }
    ctx.drop_scopes.last_mut().expect("one is open").locals.resize(entries, place);
    let start = ctx.result.start_block;
    let matched = panic::catch_unwind(AssertUnwindSafe(|| match assigns {
        false => ctx.pattern_match(start, None, place.into(), pattern),
        true => ctx.pattern_match_assignment(start, place.into(), pattern).map(|then| (then, None)),
    }));
    trace::finish(ctx.result.basic_blocks.values());
    let (then, other) = matched.unwrap_or_else(|panic| panic::resume_unwind(panic))?;
    Ok(LoweredPattern { body: ctx.result, then, other })
}

pub fn mir_body_for_closure_query() {}
