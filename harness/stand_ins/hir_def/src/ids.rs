//! Definitions by their numbers in the image: an enum by its type, a variant, struct or union by
//! its variant, a constant by the place of its operand in the list.

use la_arena::Idx;

use crate::DefDatabase;
use crate::signatures::{EnumVariants, FieldData, VariantFields};

macro_rules! ids {
    ($($name:ident),*) => {
        $(
            #[derive(Debug, Clone, Copy, PartialEq, Eq, Hash)]
            pub struct $name(pub u32);
        )*
    };
}

ids!(
    ConstId,
    EnumId,
    EnumVariantId,
    ExpressionStoreOwnerId,
    FunctionId,
    GenericParamId,
    StaticId,
    StructId,
    TraitId,
    UnionId
);

pub type LocalFieldId = Idx<FieldData>;

#[derive(Debug, Clone, Copy, PartialEq, Eq, Hash)]
pub struct FieldId {
    pub parent: VariantId,
    pub local_id: LocalFieldId,
}

#[derive(Debug, Clone, Copy, PartialEq, Eq, Hash)]
pub enum AdtId {
    StructId(StructId),
    UnionId(UnionId),
    EnumId(EnumId),
}

#[derive(Debug, Clone, Copy, PartialEq, Eq, Hash)]
pub enum VariantId {
    EnumVariantId(EnumVariantId),
    StructId(StructId),
    UnionId(UnionId),
}

impl VariantId {
    pub fn adt_id(self, db: &dyn DefDatabase) -> AdtId {
        match self {
            VariantId::EnumVariantId(v) => AdtId::EnumId(db.enum_of_variant(v.0)),
            VariantId::StructId(s) => AdtId::StructId(s),
            VariantId::UnionId(u) => AdtId::UnionId(u),
        }
    }

    pub fn from_non_enum(adt: AdtId) -> Option<VariantId> {
        match adt {
            AdtId::StructId(s) => Some(VariantId::StructId(s)),
            AdtId::UnionId(u) => Some(VariantId::UnionId(u)),
            AdtId::EnumId(_) => None,
        }
    }

    /// The variant's number in the image.
    pub fn number(self) -> u32 {
        match self {
            VariantId::EnumVariantId(EnumVariantId(number))
            | VariantId::StructId(StructId(number))
            | VariantId::UnionId(UnionId(number)) => number,
        }
    }
}

impl EnumVariantId {
    pub fn fields(self, db: &dyn DefDatabase) -> &VariantFields {
        db.variant_fields(self.0)
    }

    pub fn lookup(self, db: &dyn DefDatabase) -> EnumVariantLoc {
        EnumVariantLoc { parent: db.enum_of_variant(self.0) }
    }
}

/// Where a variant stands.
pub struct EnumVariantLoc {
    pub parent: EnumId,
}

impl EnumId {
    pub fn enum_variants(self, _: &dyn DefDatabase) -> EnumVariants {
        EnumVariants
    }
}

impl StructId {
    pub fn fields(self, db: &dyn DefDatabase) -> &VariantFields {
        db.variant_fields(self.0)
    }
}
