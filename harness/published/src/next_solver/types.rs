//! Types by their numbers. 0 to 255 are the image's, then come bool, usize, i128, the type of what
//! has none, and for each of the image's the type of a part of an array of it.

use std::cell::Cell;
use std::marker::PhantomData;
use std::ops::Index;
use std::rc::Rc;

use hir_def::{AdtId, LocalFieldId};
use rustc_type_ir::IntTy;

use crate::CallableDefId;
use crate::next_solver::{DbInterner, ErrorGuaranteed, GenericArgs};
use crate::world;

const BOOL: u16 = 256;
const USIZE: u16 = 257;
const I128: u16 = 258;
const ERROR: u16 = 259;
const PARTS: u16 = 260;

thread_local! {
    static WITHOUT_TYPES: Cell<bool> = const { Cell::new(false) };
}

/// From now on it is a panic to ask for a stored type; or no longer.
pub fn without_types(without: bool) {
    WITHOUT_TYPES.set(without);
}

#[derive(Debug, Clone, Copy, PartialEq, Eq, Hash)]
pub struct Ty<'db> {
    number: u16,
    of: PhantomData<&'db ()>,
}

#[derive(Debug, Clone, PartialEq, Eq, Hash)]
pub struct StoredTy {
    number: u16,
}

impl StoredTy {
    pub fn as_ref<'db>(&self) -> Ty<'db> {
        assert!(cfg!(feature = "quiet") || !WITHOUT_TYPES.get(), "the place that is handed in has no type");
        Ty::numbered(self.number)
    }

    pub fn number(&self) -> u16 {
        self.number
    }
}

/// The kinds that the published text tells apart, and one for all others.
#[derive(Debug, Clone)]
pub enum TyKind<'db> {
    Tuple(Rc<[Ty<'db>]>),
    Adt(AdtDef, GenericArgs<'db>),
    Ref(Ty<'db>),
    Array(Ty<'db>, u16),
    Slice(Ty<'db>),
    Closure((), GenericArgs<'db>),
    Dynamic((), ()),
    Alias((), ()),
    Other,
}

#[derive(Debug, Clone, Copy)]
pub struct AdtDef(pub AdtId);

impl AdtDef {
    pub fn is_enum(self) -> bool {
        matches!(self.0, AdtId::EnumId(_))
    }

    pub fn def_id(self) -> AdtId {
        self.0
    }
}

impl<'db> Ty<'db> {
    pub fn numbered(number: u16) -> Self {
        Ty { number, of: PhantomData }
    }

    pub fn number(self) -> u16 {
        self.number
    }

    pub fn error() -> Self {
        Ty::numbered(ERROR)
    }

    pub fn store(self) -> StoredTy {
        StoredTy { number: self.number }
    }

    /// As a local's type stands in the listing.
    pub fn listed(self) -> String {
        match self.number {
            BOOL => "bool".to_owned(),
            USIZE => "usize".to_owned(),
            I128 => "i128".to_owned(),
            number => format!("t{number}"),
        }
    }

    pub fn kind(self) -> TyKind<'db> {
        match self.number {
            0..BOOL => world::kind(self.number),
            PARTS.. => TyKind::Array(Ty::numbered(self.number - PARTS), 0),
            _ => TyKind::Other,
        }
    }

    pub fn is_copy(self) -> bool {
        self.number >= BOOL || world::is_copy(self.number)
    }

    pub fn new_bool(_: DbInterner<'db>) -> Self {
        Ty::numbered(BOOL)
    }

    pub fn new_usize(_: DbInterner<'db>) -> Self {
        Ty::numbered(USIZE)
    }

    pub fn new_int(_: DbInterner<'db>, _: IntTy) -> Self {
        Ty::numbered(I128)
    }

    pub fn new_error(_: DbInterner<'db>, _: ErrorGuaranteed) -> Self {
        Ty::error()
    }

    pub fn new_fn_def(_: DbInterner<'db>, _: CallableDefId, _: GenericArgs<'db>) -> Self {
        Ty::error()
    }

    /// A part of an array; its length is not kept.
    pub fn new_array_opt(_: DbInterner<'db>, of: Ty<'db>, _: Option<u128>) -> Self {
        Ty::numbered(PARTS + of.number)
    }

    pub fn is_ty_error(self) -> bool {
        self.number == ERROR
    }

    pub fn is_ref(self) -> bool {
        matches!(self.kind(), TyKind::Ref(_))
    }

    pub fn as_adt(self) -> Option<(AdtId, GenericArgs<'db>)> {
        match self.kind() {
            TyKind::Adt(def, args) => Some((def.def_id(), args)),
            _ => None,
        }
    }

    pub fn builtin_deref(self, _: bool) -> Option<Self> {
        match self.kind() {
            TyKind::Ref(to) => Some(to),
            _ => None,
        }
    }

    pub fn builtin_index(self) -> Option<Self> {
        match self.kind() {
            TyKind::Array(of, _) | TyKind::Slice(of) => Some(of),
            _ => None,
        }
    }

    pub fn tuple_fields(self) -> Rc<[Ty<'db>]> {
        match self.kind() {
            TyKind::Tuple(fields) => fields,
            _ => Rc::default(),
        }
    }
}

/// A type that generic arguments are still to be put into; an image's types take none.
#[derive(Debug, Clone, Copy)]
pub struct Binder(u16);

impl Binder {
    pub fn numbered(number: u16) -> Self {
        Binder(number)
    }

    pub fn error() -> Self {
        Binder(ERROR)
    }

    pub fn ty(self) -> Self {
        self
    }

    pub fn instantiate<'db>(self, _: DbInterner<'db>, _: GenericArgs<'db>) -> Instance<'db> {
        Instance(Ty::numbered(self.0))
    }
}

pub struct Instance<'db>(Ty<'db>);

impl<'db> Instance<'db> {
    pub fn skip_norm_wip(self) -> Ty<'db> {
        self.0
    }
}

/// The types of a variant's fields.
#[derive(Clone)]
pub struct FieldTypes(pub Rc<[Binder]>);

impl Index<LocalFieldId> for FieldTypes {
    type Output = Binder;

    fn index(&self, field: LocalFieldId) -> &Binder {
        &self.0[field.number()]
    }
}
