//! What stands around the items of lower.rs: the `use` lines that they need, and the heads of the
//! two `impl`s that the methods are in.

use std::{iter, mem::size_of};

use hir_def::{
    EnumVariantId, ExpressionStoreOwnerId, GenericParamId, TraitId,
    base::{Crate, Edition},
    expr_store::{ExpressionStore, HygieneId, path::Path},
    hir::{BindingAnnotation, BindingId, ExprId, LabelId, Literal, Pat, PatId},
    name::Name,
    resolver::{ResolveValueResult, Resolver, ValueNs},
    signatures::EnumSignature,
};
use la_arena::ArenaMap;
use rustc_hash::FxHashMap;
use salsa::SalsaValue;

use crate::{
    InferBodyId, ParamEnvAndCrate,
    consteval::ConstEvalError,
    db::{GeneralConstId, HirDatabase},
    display::{DisplayTarget, hir_display_with_store},
    layout::LayoutError,
    mir::{
        Arena, BasicBlock, BasicBlockId, BinOp, BorrowKind, Expr, GenericArgs, Idx, InferenceResult, Local,
        LocalId, MemoryMap, MirBody, MirSpan, Operand, PlaceElem, ProjectionElem, Rvalue, Statement,
        StatementKind, StoredPlace, SwitchTargets, Terminator, TerminatorKind, Ty, VariantId,
    },
    next_solver::{
        Const, DbInterner, ParamEnv, StoredGenericArgs, StoredTy, TyKind, TypingMode, UnevaluatedConst,
        infer::InferCtxt,
    },
};

use super::{OperandKind, Place};

mod as_place;
mod calls;
mod discriminants;
mod entry;
mod parameters;
mod pattern_matching;
mod replacements;
mod rows;
mod struck;

pub use calls::lower_body_to_mir;
pub use entry::{lower_to_mir_with_store, mir_body_for_closure_query};
pub use parameters::mir_body_query;

//@ items

impl MirLowerError<'_> {
    //@ error methods
}

impl<'a, 'db> MirLowerCtx<'a, 'db> {
    //@ methods
}
