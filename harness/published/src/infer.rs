//! Stand-in for inference: its answers are the image's words.

use std::ops::Index;

use hir_def::hir::{BindingId, PatId};
use hir_def::{ConstId, VariantId};

use crate::method_resolution::CandidateId;
use crate::next_solver::{GenericArgs, Ty};
use crate::{BindingMode, trace};

#[derive(Debug, Clone, Copy, PartialEq, Eq)]
pub struct PointerCast;

pub mod closure {
    pub mod analysis {
        pub use crate::closure_analysis::BorrowKind;
    }
}

pub struct InferenceResult<'db> {
    pub pat_adjustments: PatAdjustments,
    pub binding_modes: BindingModes,
    pub pat_types: Vec<Ty<'db>>,
    pub binding_types: Vec<Ty<'db>>,
    pub variants: Vec<Option<VariantId>>,
    pub associated: Vec<Option<ConstId>>,
}

impl<'db> InferenceResult<'db> {
    pub fn pat_ty(&self, pat: PatId) -> Ty<'db> {
        self.pat_types[pat.number()]
    }

    pub fn binding_ty(&self, binding: BindingId) -> Ty<'db> {
        self.binding_types[binding.number()]
    }

    pub fn variant_resolution_for_pat(&self, pat: PatId) -> Option<VariantId> {
        self.variants[pat.number()]
    }

    pub fn assoc_resolutions_for_pat(&self, pat: PatId) -> Option<(CandidateId, GenericArgs<'db>)> {
        let constant = self.associated[pat.number()]?;
        Some((CandidateId::ConstId(constant), GenericArgs::empty()))
    }
}

/// The derefs of each pattern. `pattern_match_inner` asks once on every entry, and nothing else
/// asks, so the trace hears of every visit.
pub struct PatAdjustments(pub Vec<Vec<()>>);

impl PatAdjustments {
    pub fn get(&self, pat: &PatId) -> Option<&Vec<()>> {
        trace::entered(pat.number());
        Some(&self.0[pat.number()])
    }
}

/// The mode of each Bind. It is asked for just before the binding's local is.
pub struct BindingModes(pub Vec<BindingMode>);

impl Index<PatId> for BindingModes {
    type Output = BindingMode;

    fn index(&self, pat: PatId) -> &BindingMode {
        trace::binds(pat.number());
        &self.0[pat.number()]
    }
}
