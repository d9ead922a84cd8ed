//! Enums, and the fields of a variant.

use la_arena::Arena;

use crate::name::Name;
use crate::{DefDatabase, EnumId, EnumVariantId, LocalFieldId};

/// A field; its number in the arena is all that is asked of it.
#[derive(Debug, Clone, PartialEq, Eq)]
pub struct FieldData;

#[derive(Debug, Clone, Default, PartialEq, Eq)]
pub struct VariantFields {
    fields: Arena<FieldData>,
}

impl VariantFields {
    pub fn with_count(count: usize) -> Self {
        let mut fields = Arena::new();
        for _ in 0..count {
            fields.alloc(FieldData);
        }
        VariantFields { fields }
    }

    pub fn fields(&self) -> &Arena<FieldData> {
        &self.fields
    }

    pub fn field(&self, name: &Name) -> Option<LocalFieldId> {
        let number = usize::from(name.0);
        (number < self.fields.len()).then(|| LocalFieldId::from_number(number))
    }
}

/// An enum; its name is asked for only in an error's text.
pub struct EnumSignature {
    pub name: Name,
}

impl EnumSignature {
    pub fn of(_: &dyn DefDatabase, id: EnumId) -> EnumSignature {
        EnumSignature { name: Name(id.0 as u16) }
    }
}

/// The variants of an enum, which are asked for only in an error's text.
pub struct EnumVariants;

impl EnumVariants {
    pub fn variant_name_by_id(&self, id: EnumVariantId) -> Option<Name> {
        Some(Name(id.0 as u16))
    }
}
