//! The published text of ra_ap_hir_ty's mir.rs, lower.rs and pattern_matching.rs, compiled against
//! stand-ins that answer from an image's tables. `lower` lowers an image's last pattern with it.
#![allow(dead_code, unused_imports)]

pub mod answer;
pub mod calls;
pub mod closure_analysis;
pub mod consteval;
pub mod db;
pub mod display;
pub mod infer;
pub mod layout;
pub mod method_resolution;
pub mod next_solver;
pub mod parameters;
pub mod prepared;
mod store;
pub mod trace;
mod world;

use std::marker::PhantomData;

use hir_def::base::Crate;
use hir_def::resolver::Resolver;
use hir_def::{ExpressionStoreOwnerId, FunctionId};

pub use answer::{Answer, Changed, How, Outcome, lower};
pub use infer::InferenceResult;
pub use layout::ParamEnvAndCrate;
use rustc_ast_ir::Mutability;

use db::HirDatabase;

include!(concat!(env!("OUT_DIR"), "/root.rs"));

/// Which lines of the published text are compiled.
pub const COPIED: &str = include_str!(concat!(env!("OUT_DIR"), "/copied.txt"));

#[derive(Debug, Clone, Copy, PartialEq, Eq)]
pub struct BindingMode(pub ByRef, pub Mutability);

#[derive(Debug, Clone, Copy, PartialEq, Eq)]
pub enum ByRef {
    Yes(Mutability),
    No,
}

#[derive(Debug, Clone, Copy, PartialEq, Eq)]
pub enum CallableDefId {
    FunctionId(FunctionId),
}

/// The memory that a constant points to.
#[derive(Debug, Clone, Default, PartialEq, Eq, Hash)]
pub struct MemoryMap<'db> {
    content: Option<Box<[u8]>>,
    of: PhantomData<&'db ()>,
}

impl MemoryMap<'_> {
    pub fn simple(content: Box<[u8]>) -> Self {
        MemoryMap { content: Some(content), of: PhantomData }
    }

    pub fn content(self) -> Option<Box<[u8]>> {
        self.content
    }
}

/// The body that is lowered; there is one.
#[derive(Debug, Clone, Copy, Default, PartialEq, Eq)]
pub struct InferBodyId<'db> {
    of: PhantomData<&'db ()>,
}

impl<'db> InferBodyId<'db> {
    pub fn expression_store_owner(self, _: &dyn HirDatabase) -> ExpressionStoreOwnerId {
        ExpressionStoreOwnerId(0)
    }

    pub fn resolver(self, _: &'db dyn HirDatabase) -> Resolver<'db> {
        Resolver::default()
    }

    pub fn generic_def(self, _: &dyn HirDatabase) {}

    pub fn krate(self, _: &dyn HirDatabase) -> Crate {
        Crate
    }
}
