//! The patterns, expressions and bindings of a body.

use std::cell::Cell;
use std::ops::Index;

use la_arena::Arena;

use crate::hir::{Binding, BindingId, Expr, ExprId, Pat, PatId};

pub mod path {
    use crate::resolver::ResolveValueResult;

    /// A path, with what it is resolved to.
    #[derive(Debug, Clone, PartialEq, Eq)]
    pub struct Path {
        pub leads_to: Option<ResolveValueResult>,
    }
}

#[derive(Debug, Clone, Copy, PartialEq, Eq)]
pub struct HygieneId;

impl HygieneId {
    pub const ROOT: HygieneId = HygieneId;
}

#[derive(Debug, Default)]
pub struct ExpressionStore {
    pub pats: Arena<Pat>,
    pub exprs: Arena<Expr>,
    pub bindings: Arena<Binding>,
    /// For each pattern the binding as that pattern has it.
    pub bound: Vec<Binding>,
    /// The pattern that was read last.
    pub read: Cell<usize>,
}

impl ExpressionStore {
    pub fn bindings(&self) -> impl Iterator<Item = (BindingId, &Binding)> {
        self.bindings.iter()
    }

    pub fn pat_path_hygiene(&self, _: PatId) -> HygieneId {
        HygieneId::ROOT
    }
}

impl Index<PatId> for ExpressionStore {
    type Output = Pat;

    fn index(&self, pat: PatId) -> &Pat {
        self.read.set(pat.number());
        &self.pats[pat]
    }
}

impl Index<ExprId> for ExpressionStore {
    type Output = Expr;

    fn index(&self, expr: ExprId) -> &Expr {
        &self.exprs[expr]
    }
}

/// A binding is asked for where a Bind of it was just read, and it is answered as that Bind has it:
/// an image may have two Binds of one binding with different annotations.
impl Index<BindingId> for ExpressionStore {
    type Output = Binding;

    fn index(&self, _: BindingId) -> &Binding {
        &self.bound[self.read.get()]
    }
}
