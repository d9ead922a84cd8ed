//! What a path leads to.

use std::marker::PhantomData;

use crate::base::Crate;
use crate::expr_store::{HygieneId, path::Path};
use crate::hir::BindingId;
use crate::{ConstId, DefDatabase, FunctionId};

#[derive(Debug, Clone, Copy, PartialEq, Eq)]
pub enum ValueNs {
    LocalBinding(BindingId),
    ConstId(ConstId),
    FunctionId(FunctionId),
}

#[derive(Debug, Clone, Copy, PartialEq, Eq)]
pub enum ResolveValueResult {
    ValueNs(ValueNs),
    Partial(u32, usize),
}

#[derive(Debug, Clone, Default)]
pub struct Resolver<'db> {
    of: PhantomData<&'db ()>,
}

impl Resolver<'_> {
    pub fn krate(&self) -> Crate {
        Crate
    }

    /// A path of the image says itself what it leads to.
    pub fn resolve_path_in_value_ns(
        &self,
        _: &dyn DefDatabase,
        path: &Path,
        _: HygieneId,
    ) -> Option<ResolveValueResult> {
        path.leads_to
    }
}
