//! Stand-in for hir_def: patterns, expressions, variants and their fields, and the resolver,
//! with the published names. What the compiler's database would answer comes through
//! `DefDatabase`, which the harness answers from an image's tables.

pub mod base;
pub mod expr_store;
pub mod hir;
pub mod ids;
pub mod name;
pub mod resolver;
pub mod signatures;

pub use ids::*;

use signatures::VariantFields;

/// The questions about definitions that the lowering asks.
pub trait DefDatabase {
    /// The fields of a variant, by its number in the image.
    fn variant_fields(&self, variant: u32) -> &VariantFields;

    /// The enum that has a variant; of a variant that no enum has, one that no type is.
    fn enum_of_variant(&self, variant: u32) -> EnumId;
}

pub mod type_ref {
    #[derive(Debug, Clone, Copy, PartialEq, Eq)]
    pub enum Mutability {
        Shared,
        Mut,
    }
}
