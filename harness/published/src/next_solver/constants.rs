//! Stand-in for constants: their bytes, or the definition whose value they are.

use hir_def::ConstId;

use crate::MemoryMap;
use crate::db::GeneralConstId;
use crate::next_solver::{DbInterner, GenericArgs, Ty};

pub struct AllocationData<'db> {
    pub ty: Ty<'db>,
    pub memory: Box<[u8]>,
    pub memory_map: MemoryMap<'db>,
}

pub struct Allocation<'db>(AllocationData<'db>);

impl<'db> Allocation<'db> {
    pub fn new(data: AllocationData<'db>) -> Self {
        Allocation(data)
    }

    pub fn store(self) -> StoredAllocation {
        let (type_, memory) = (self.0.ty.number(), self.0.memory);
        StoredAllocation { type_, memory, contents: self.0.memory_map.content() }
    }
}

/// The type and the bytes of a constant, and the memory it points to.
#[derive(Debug, Clone, PartialEq, Eq)]
pub struct StoredAllocation {
    type_: u16,
    memory: Box<[u8]>,
    contents: Option<Box<[u8]>>,
}

impl StoredAllocation {
    pub fn type_number(&self) -> u16 {
        self.type_
    }

    pub fn memory(&self) -> &[u8] {
        &self.memory
    }

    pub fn contents(&self) -> Option<&[u8]> {
        self.contents.as_deref()
    }
}

/// What a constant is the value of.
#[derive(Debug, Clone, Copy, PartialEq, Eq)]
pub struct ConstDefinition(ConstId);

impl From<GeneralConstId<'_>> for ConstDefinition {
    fn from(id: GeneralConstId<'_>) -> Self {
        match id {
            GeneralConstId::ConstId(id) => ConstDefinition(id),
            other => panic!("no image has {other:?}"),
        }
    }
}

pub struct UnevaluatedConst<'db> {
    pub def: ConstDefinition,
    pub args: GenericArgs<'db>,
}

pub struct Const(ConstDefinition);

impl Const {
    pub fn new_unevaluated<'db>(_: DbInterner<'db>, constant: UnevaluatedConst<'db>) -> Self {
        Const(constant.def)
    }

    pub fn store(self) -> StoredConst {
        StoredConst { definition: self.0 }
    }
}

#[derive(Debug, Clone, PartialEq, Eq)]
pub struct StoredConst {
    definition: ConstDefinition,
}

impl StoredConst {
    pub fn definition(&self) -> ConstId {
        self.definition.0
    }
}
