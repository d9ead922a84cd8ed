//! `lower_params_and_bindings` for the harness, under a name that mir.rs hands on from lower.rs.

use std::panic::{self, AssertUnwindSafe};

use image::Tables;

use super::discriminants::part;
use super::entry::LoweredPattern;
use super::struck::strike_out;
use super::{
    BasicBlockId, BindingId, DropScope, DropScopeToken, ExpressionStore, HirDatabase, InferBodyId,
    InferenceResult, Local, MirBody, MirLowerCtx, MirSpan, Result, Ty,
};
use crate::answer::Listed;
use crate::parameters::{After, HandedParameters};
use crate::trace;

/// The body that is made, the block that is returned or the error, what stands in the scopes,
/// whether several discriminant tests have got their locals, and whether entries were struck out.
pub struct LoweredParameters<'db> {
    body: MirBody<'db>,
    then: Result<'db, BasicBlockId>,
    entries: Vec<usize>,
    parted: bool,
    struck: bool,
}

impl<'db> LoweredParameters<'db> {
    /// The local of each binding.
    pub fn bound(&self, bindings: usize) -> Vec<Option<usize>> {
        let local = |number| self.body.binding_locals.get(BindingId::from_number(number));
        (0..bindings).map(|number| local(number).map(|local| local.number())).collect()
    }

    /// The listing for the patterns that were walked, and lines with the parameters' locals, the
    /// bindings' locals and the entries of the scopes.
    pub fn listing(
        self,
        db: &dyn HirDatabase,
        tables: &Tables,
        roots: &[u16],
        bindings: usize,
    ) -> Result<'db, Listed> {
        let word = |local: Option<usize>| local.map_or("-".to_owned(), |local| local.to_string());
        let line = |name: &str, words: Vec<String>| [vec![name.to_owned()], words].concat().join(" ") + "\n";
        let bound = self.bound(bindings).into_iter().map(word).collect();
        let params = self.body.param_locals.iter().map(|local| local.number().to_string()).collect();
        let entries = self.entries.iter().map(usize::to_string).collect();
        let lowered = LoweredPattern { body: self.body, then: self.then?, other: None };
        let mut listed = lowered.replaced(db, tables, roots, false, self.parted);
        listed.changed.struck = self.struck;
        listed.text += &(line("params", params) + &line("bindings", bound) + &line("entries", entries));
        Ok(listed)
    }
}

/// Lowers parameters into a new body, and does what comes after it, on the body whose discriminant
/// tests have their locals and whose scopes hold no local twice.
pub fn mir_body_query<'db>(
    db: &'db dyn HirDatabase,
    store: &ExpressionStore,
    infer: &InferenceResult<'db>,
    handed: HandedParameters<'_, 'db>,
    after: After,
) -> LoweredParameters<'db> {
    let mut ctx = MirLowerCtx::new(db, InferBodyId::default(), store, infer);
    for _ in 0..handed.locals {
        ctx.result.locals.alloc(Local { ty: Ty::numbered(0).store() });
    }
    ctx.drop_scopes = (0..handed.scopes).map(|_| DropScope::default()).collect();
    let (mut parted, mut struck) = (false, false);
    let lowered = panic::catch_unwind(AssertUnwindSafe(|| {
        let picks = |binding: BindingId| handed.picked[binding.number()];
        let list = handed.list.iter().copied();
        let then = ctx.lower_params_and_bindings(list, handed.self_binding, picks)?;
        trace::left(ctx.result.basic_blocks.values());
        parted = part(&mut ctx.result, &mut ctx.drop_scopes);
        struck = strike_out(&mut ctx.drop_scopes, 0) > 0;
        Ok(match after {
            After::Nothing => then,
            After::DropUntilScope => ctx.drop_until_scope(0, then, MirSpan::Unknown),
            After::PopAndDrop => DropScopeToken.pop_and_drop(&mut ctx, then, MirSpan::Unknown),
        })
    }));
    trace::finish(ctx.result.basic_blocks.values());
    let then = lowered.unwrap_or_else(|panic| panic::resume_unwind(panic));
    let scopes = ctx.drop_scopes.iter();
    let entries = scopes.flat_map(|scope| scope.locals.iter().map(|local| local.number())).collect();
    LoweredParameters { body: ctx.result, then, entries, parted, struck }
}
