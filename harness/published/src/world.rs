//! An image's tables as the answers of the compiler's database, and, for the kinds of types, as
//! what this thread lowers.

use std::cell::RefCell;
use std::rc::Rc;
use std::sync::Arc;

use hir_def::signatures::VariantFields;
use hir_def::{AdtId, ConstId, DefDatabase, EnumId, EnumVariantId, StructId, UnionId, VariantId};
use image::kinds::{ADT, ARRAY, ENUM, INTEGER, REFERENCE, SLICE_TYPE, STRUCT, TUPLE_TYPE};
use image::{ABSENT, Tables};

use crate::consteval::ConstEvalError;
use crate::db::{HirDatabase, ValueTyDefId};
use crate::layout::{Layout, LayoutError, Size, StoredParamEnvAndCrate};
use crate::next_solver::{AdtDef, Binder, FieldTypes, GenericArgs, StoredTy, Ty, TyKind};

pub struct World {
    pub tables: Tables,
    fields: Vec<VariantFields>,
    /// For each variant the type that has it.
    adts: Vec<Option<usize>>,
    /// For each type its kind, and for an integer type its layout.
    kinds: Vec<TyKind<'static>>,
    layouts: Vec<Option<Arc<Layout>>>,
    /// For each variant the types of its fields.
    field_types: Vec<FieldTypes>,
}

thread_local! {
    static CURRENT: RefCell<Option<Rc<World>>> = const { RefCell::new(None) };
}

impl World {
    /// The world of an image, from now on this thread's.
    pub fn enter(tables: Tables) -> Rc<World> {
        let fields = tables.variants.iter().map(|row| VariantFields::with_count(row[1].into())).collect();
        let mut adts = vec![None; tables.variants.len()];
        for (number, &[kind, a, b, _, _]) in tables.types.iter().enumerate() {
            if kind == ADT {
                adts[a.into()..usize::from(a) + usize::from(b)].fill(Some(number));
            }
        }
        let types = 0..tables.types.len();
        let kinds = types.clone().map(|type_| kind_in(&tables, type_ as u16)).collect();
        let layouts = types.map(|type_| layout_in(&tables, type_)).collect();
        let field_types = tables.variants.iter().map(|row| field_types_in(&tables, row)).collect();
        let world = Rc::new(World { tables, fields, adts, kinds, layouts, field_types });
        CURRENT.set(Some(world.clone()));
        world
    }

    /// The world of an image that was entered before, again this thread's.
    pub fn enter_again(world: &Rc<World>) {
        CURRENT.set(Some(world.clone()));
    }

    /// A variant by its number: an enum's, a struct's or a union's; of one that no type has, an
    /// enum's that no type is.
    pub fn variant(&self, number: u16) -> Option<VariantId> {
        if number == ABSENT {
            return None;
        }
        let type_kind = self.adts[usize::from(number)].map_or(ENUM, |adt| self.tables.types[adt][3]);
        let number = u32::from(number);
        Some(match type_kind {
            STRUCT => VariantId::StructId(StructId(number)),
            ENUM => VariantId::EnumVariantId(EnumVariantId(number)),
            _ => VariantId::UnionId(UnionId(number)),
        })
    }
}

fn adt_in(tables: &Tables, type_: u16) -> AdtId {
    let [_, first, _, c, _] = tables.types[usize::from(type_)];
    match c {
        STRUCT => AdtId::StructId(StructId(first.into())),
        ENUM => AdtId::EnumId(EnumId(type_.into())),
        _ => AdtId::UnionId(UnionId(first.into())),
    }
}

fn kind_in(tables: &Tables, type_: u16) -> TyKind<'static> {
    let [kind, a, b, _, _] = tables.types[usize::from(type_)];
    match kind {
        TUPLE_TYPE => {
            let fields = tables.words(a, b.into()).iter();
            TyKind::Tuple(fields.map(|&field| Ty::numbered(field)).collect())
        }
        ADT => TyKind::Adt(AdtDef(adt_in(tables, type_)), GenericArgs::empty()),
        REFERENCE => TyKind::Ref(Ty::numbered(a)),
        ARRAY => TyKind::Array(Ty::numbered(a), b),
        SLICE_TYPE => TyKind::Slice(Ty::numbered(a)),
        _ => TyKind::Other,
    }
}

fn layout_in(tables: &Tables, type_: usize) -> Option<Arc<Layout>> {
    let [kind, size, ..] = tables.types[type_];
    (kind == INTEGER).then(|| Arc::new(Layout { size: Size(size.into()) }))
}

fn field_types_in(tables: &Tables, &[first, count, _]: &[u16; 3]) -> FieldTypes {
    FieldTypes(tables.words(first, count.into()).iter().map(|&type_| Binder::numbered(type_)).collect())
}

/// Asks this thread's world.
fn ask<T>(question: impl FnOnce(&World) -> T) -> T {
    CURRENT.with_borrow(|world| question(world.as_ref().expect("an image is being lowered")))
}

pub fn kind<'db>(type_: u16) -> TyKind<'db> {
    ask(|world| world.kinds[usize::from(type_)].clone())
}

pub fn is_copy(type_: u16) -> bool {
    ask(|world| world.tables.types[usize::from(type_)][4] == 1)
}

impl DefDatabase for World {
    fn variant_fields(&self, variant: u32) -> &VariantFields {
        &self.fields[variant as usize]
    }

    fn enum_of_variant(&self, variant: u32) -> EnumId {
        EnumId(self.adts[variant as usize].map_or(ABSENT.into(), |adt| adt as u32))
    }
}

impl HirDatabase for World {
    fn layout_of_ty(&self, ty: StoredTy, _: StoredParamEnvAndCrate) -> Result<Arc<Layout>, LayoutError> {
        let kept = self.layouts.get(usize::from(ty.number()));
        kept.and_then(Clone::clone).ok_or(LayoutError::NoInteger)
    }

    /// A constant's own type, which the listing leaves out; an image does not say it.
    fn value_ty(&self, _: ValueTyDefId) -> Option<Binder> {
        Some(Binder::error())
    }

    fn const_eval_discriminant(&self, variant: EnumVariantId) -> Result<i128, ConstEvalError<'static>> {
        let offset = usize::from(self.tables.variants[variant.0 as usize][2]);
        let bytes = &self.tables.data[offset..offset + 16];
        Ok(i128::from_le_bytes(bytes.try_into().expect("16 bytes")))
    }

    fn field_types(&self, variant: VariantId) -> FieldTypes {
        self.field_types[variant.number() as usize].clone()
    }

    fn evaluated_bytes(&self, constant: ConstId) -> Vec<u8> {
        self.tables.operand(constant.0 as u16).expect("an operand").bytes.to_vec()
    }
}
