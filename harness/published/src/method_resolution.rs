//! Stand-in for method resolution: what an associated name leads to.

use hir_def::{ConstId, FunctionId};

#[derive(Debug, Clone, Copy, PartialEq, Eq)]
pub enum CandidateId {
    FunctionId(FunctionId),
    ConstId(ConstId),
}
