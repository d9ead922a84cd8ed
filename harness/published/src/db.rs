//! The questions that the lowering asks the compiler's database, and the numbers they go by.

use std::marker::PhantomData;
use std::sync::Arc;

use hir_def::{ConstId, DefDatabase, EnumVariantId, StaticId, VariantId};

use crate::consteval::ConstEvalError;
use crate::layout::{Layout, LayoutError, StoredParamEnvAndCrate};
use crate::next_solver::{Binder, FieldTypes, ParamEnv, StoredTy};

pub trait HirDatabase: DefDatabase {
    fn layout_of_ty(&self, ty: StoredTy, env: StoredParamEnvAndCrate) -> Result<Arc<Layout>, LayoutError>;

    fn value_ty(&self, of: ValueTyDefId) -> Option<Binder>;

    fn const_eval_discriminant(&self, variant: EnumVariantId) -> Result<i128, ConstEvalError<'static>>;

    fn field_types(&self, variant: VariantId) -> FieldTypes;

    fn trait_environment(&self, _: ()) -> ParamEnv<'_> {
        ParamEnv::default()
    }

    /// The bytes of an evaluated constant, for the listing.
    fn evaluated_bytes(&self, constant: ConstId) -> Vec<u8>;
}

#[derive(Debug, Clone, Copy, PartialEq, Eq)]
pub struct InternedClosureId<'db> {
    of: PhantomData<&'db ()>,
}

#[derive(Debug, Clone, Copy, PartialEq, Eq)]
pub enum ValueTyDefId {
    ConstId(ConstId),
    StaticId(StaticId),
}

impl From<ConstId> for ValueTyDefId {
    fn from(id: ConstId) -> Self {
        ValueTyDefId::ConstId(id)
    }
}

impl From<StaticId> for ValueTyDefId {
    fn from(id: StaticId) -> Self {
        ValueTyDefId::StaticId(id)
    }
}

#[derive(Debug, Clone, Copy, PartialEq, Eq)]
pub enum GeneralConstId<'db> {
    ConstId(ConstId),
    StaticId(StaticId),
    AnonConstId(AnonConstId<'db>),
}

impl From<ConstId> for GeneralConstId<'_> {
    fn from(id: ConstId) -> Self {
        GeneralConstId::ConstId(id)
    }
}

#[derive(Debug, Clone, Copy, PartialEq, Eq)]
pub struct AnonConstId<'db> {
    of: PhantomData<&'db ()>,
}

pub struct AnonConstLoc {
    pub ty: StoredBinder,
}

pub struct StoredBinder(Binder);

impl StoredBinder {
    pub fn get(self) -> Binder {
        self.0
    }
}

impl AnonConstId<'_> {
    pub fn loc(self, _: &dyn HirDatabase) -> AnonConstLoc {
        AnonConstLoc { ty: StoredBinder(Binder::error()) }
    }
}
