//! Stand-in for the type system: a type is its number in the image, or one of the three that a
//! temporary has. Its kind is read from the tables of the image that is being lowered.

mod constants;
pub mod infer;
pub mod obligation_ctxt;
mod slices;
mod types;

use std::marker::PhantomData;

use hir_def::base::Crate;

pub use constants::{Allocation, AllocationData, Const, StoredAllocation, StoredConst, UnevaluatedConst};
pub(crate) use slices::interned_slice;
pub use types::{AdtDef, Binder, FieldTypes, StoredTy, Ty, TyKind, without_types};

use crate::db::HirDatabase;
use crate::next_solver::infer::InferCtxtBuilder;

/// Those who walk types; nobody does.
pub trait WorldExposer {}

#[derive(Debug, Clone, Copy, PartialEq, Eq)]
pub struct ErrorGuaranteed;

#[derive(Debug, Clone, Copy, Default, PartialEq, Eq, Hash)]
pub struct ParamEnv<'db> {
    of: PhantomData<&'db ()>,
}

/// Generic arguments; no type of an image has any.
#[derive(Debug, Clone, Copy, Default, PartialEq, Eq, Hash)]
pub struct GenericArgs<'db> {
    of: PhantomData<&'db ()>,
}

#[derive(Debug, Clone, PartialEq, Eq, Hash)]
pub struct StoredGenericArgs;

impl<'db> GenericArgs<'db> {
    pub fn empty() -> Self {
        GenericArgs::default()
    }

    pub fn store(self) -> StoredGenericArgs {
        StoredGenericArgs
    }

    pub fn as_closure(self) -> ClosureArgs<'db> {
        ClosureArgs { of: PhantomData }
    }
}

/// A closure's captures; no image has a closure.
pub struct ClosureArgs<'db> {
    of: PhantomData<&'db ()>,
}

impl<'db> ClosureArgs<'db> {
    pub fn tupled_upvars_ty(self) -> Ty<'db> {
        Ty::error()
    }
}

#[derive(Debug, Clone, Copy)]
pub enum TypingMode {
    NonBodyAnalysis,
}

impl TypingMode {
    pub fn non_body_analysis() -> Self {
        TypingMode::NonBodyAnalysis
    }
}

/// The types that are always there; the lowering of patterns asks for none.
#[derive(Debug)]
pub struct DefaultAny<'db> {
    of: PhantomData<&'db ()>,
}

pub fn default_types<'db>() -> &'db DefaultAny<'db> {
    &DefaultAny { of: PhantomData }
}

#[derive(Clone, Copy)]
pub struct DbInterner<'db> {
    db: &'db dyn HirDatabase,
}

impl<'db> DbInterner<'db> {
    pub fn new_with(db: &'db dyn HirDatabase, _: Crate) -> Self {
        DbInterner { db }
    }

    pub fn new_no_crate(db: &'db dyn HirDatabase) -> Self {
        DbInterner { db }
    }

    pub fn db(self) -> &'db dyn HirDatabase {
        self.db
    }

    pub fn infer_ctxt(self) -> InferCtxtBuilder<'db> {
        InferCtxtBuilder { interner: self }
    }
}
