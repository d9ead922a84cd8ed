//! The patterns, literals and bindings of an image as the store and inference have them.

use hir_def::expr_store::{ExpressionStore, path::Path};
use hir_def::hir::{
    Binding, BindingAnnotation, BindingId, Expr, ExprId, FloatTypeWrapper, Literal, Pat, PatId, RangeOp,
    RecordFieldPat, Symbol, Text,
};
use hir_def::name::Name;
use hir_def::resolver::{ResolveValueResult, ValueNs};
use hir_def::type_ref::Mutability as TypeMutability;
use hir_def::{ConstId, FunctionId};
use image::kinds::*;
use image::{ABSENT, Tables};
use rustc_ast_ir::Mutability;

use crate::infer::{BindingModes, InferenceResult, PatAdjustments};
use crate::next_solver::Ty;
use crate::world::World;
use crate::{BindingMode, ByRef};

/// The store of an image that keeps all rules.
pub fn store(m: &Tables) -> ExpressionStore {
    let mut store = ExpressionStore::default();
    for _ in &m.bindings {
        store.bindings.alloc(Binding { mode: BindingAnnotation::Unannotated });
    }
    for row in &m.patterns {
        let pat = pattern(m, row, &mut store);
        store.pats.alloc(pat);
        store.bound.push(Binding { mode: annotation(row[6]) });
    }
    store
}

fn annotation(word: u16) -> BindingAnnotation {
    match word {
        0 => BindingAnnotation::Unannotated,
        1 => BindingAnnotation::Mutable,
        _ => BindingAnnotation::Ref,
    }
}

fn pat(number: u16) -> PatId {
    PatId::from_number(number.into())
}

fn optional_pat(number: u16) -> Option<PatId> {
    (number != ABSENT).then(|| pat(number))
}

fn pats(m: &Tables, start: usize, count: u16) -> Box<[PatId]> {
    m.list[start..start + usize::from(count)].iter().map(|&number| pat(number)).collect()
}

fn pattern(m: &Tables, row: &[u16; 7], store: &mut ExpressionStore) -> Pat {
    let &[kind, _, _, a, b, c, d] = row;
    let at = usize::from(a);
    let ellipsis = (c != ABSENT).then_some(u32::from(c));
    match kind {
        MISSING => Pat::Missing,
        REST => Pat::Rest,
        NOT_NULL => Pat::NotNull,
        TUPLE => Pat::Tuple { args: pats(m, at, b), ellipsis },
        OR => Pat::Or(pats(m, at, b)),
        RECORD => Pat::Record { path: nowhere(), args: fields(m, a, b), ellipsis: false },
        RANGE => range(m, row, store),
        SLICE => {
            let suffix = pats(m, at + usize::from(b), c);
            Pat::Slice { prefix: pats(m, at, b), slice: optional_pat(d), suffix }
        }
        PATH => Pat::Path(path(a, b)),
        LIT => Pat::Lit(literal(m, a, store)),
        BIND => Pat::Bind { id: BindingId::from_number(at), subpat: optional_pat(b) },
        TUPLE_STRUCT => Pat::TupleStruct { path: nowhere(), args: pats(m, at, b), ellipsis },
        REF => Pat::Ref { pat: pat(a), mutability: TypeMutability::Shared },
        EXPR => Pat::Expr(store.exprs.alloc(Expr::Missing)),
        BOX => Pat::Box { inner: pat(0) },
        DEREF => Pat::Deref { inner: pat(0) },
        _ => Pat::Wild,
    }
}

fn fields(m: &Tables, start: u16, count: u16) -> Box<[RecordFieldPat]> {
    let pairs = m.words(start, 2 * usize::from(count)).chunks(2);
    pairs.map(|pair| RecordFieldPat { name: Name(pair[0]), pat: pat(pair[1]) }).collect()
}

fn range(m: &Tables, row: &[u16; 7], store: &mut ExpressionStore) -> Pat {
    let &[_, _, _, a, b, c, _] = row;
    let mut end = |start: u16| (start != ABSENT).then(|| literal(m, start, store));
    Pat::Range {
        start: end(a),
        end: end(b),
        range_type: if c == 1 { RangeOp::Exclusive } else { RangeOp::Inclusive },
    }
}

/// A path whose variant inference has resolved.
fn nowhere() -> Path {
    Path { leads_to: None }
}

fn path(a: u16, b: u16) -> Path {
    let value = match a {
        NAMES_BINDING => ValueNs::LocalBinding(BindingId::from_number(b.into())),
        NAMES_CONSTANT => ValueNs::ConstId(ConstId(b.into())),
        NAMES_OTHER => ValueNs::FunctionId(FunctionId(0)),
        _ => return nowhere(),
    };
    Path { leads_to: Some(ResolveValueResult::ValueNs(value)) }
}

/// The expression of an operand: a literal, a path to a constant, or something else.
fn literal(m: &Tables, start: u16, store: &mut ExpressionStore) -> ExprId {
    let operand = m.operand(start).expect("a whole operand");
    let bytes = operand.bytes;
    let wide = || <[u8; 16]>::try_from(bytes).expect("16 bytes");
    let narrow = || u32::from_le_bytes(bytes.try_into().expect("four bytes"));
    let literal = match operand.kind {
        INT => Literal::Int(i128::from_le_bytes(wide()), None),
        UINT => Literal::Uint(u128::from_le_bytes(wide()), None),
        CHARACTER => Literal::Char(char::from_u32(narrow()).expect("a scalar value")),
        BOOLEAN => Literal::Bool(bytes[0] == 1),
        STRING => Literal::String(Symbol(Text(bytes.into()))),
        C_STRING => Literal::CString(bytes.into()),
        BYTE_STRING => Literal::ByteString(bytes.into()),
        FLOAT => Literal::Float(FloatTypeWrapper, None),
        CONSTANT => return store.exprs.alloc(Expr::Path(path(NAMES_CONSTANT, start))),
        _ => return store.exprs.alloc(Expr::Missing),
    };
    store.exprs.alloc(Expr::Literal(literal))
}

/// What inference answers for an image.
pub fn inference<'db>(world: &World) -> InferenceResult<'db> {
    let m = &world.tables;
    let variant = |&[kind, _, _, a, b, c, d]: &[u16; 7]| match kind {
        RECORD => world.variant(c),
        TUPLE_STRUCT => world.variant(d),
        PATH if a == NAMES_VARIANT => world.variant(b),
        _ => None,
    };
    let derefs = |row: &[u16; 7]| vec![(); row[2].into()];
    InferenceResult {
        pat_adjustments: PatAdjustments(m.patterns.iter().map(derefs).collect()),
        binding_modes: BindingModes(m.patterns.iter().map(|row| binding_mode(row[5])).collect()),
        pat_types: m.patterns.iter().map(|row| Ty::numbered(row[1])).collect(),
        binding_types: m.bindings.iter().map(|row| Ty::numbered(row[0])).collect(),
        variants: m.patterns.iter().map(variant).collect(),
        associated: vec![None; m.patterns.len()],
    }
}

fn binding_mode(mode: u16) -> BindingMode {
    let by_ref = match mode {
        BY_REF => ByRef::Yes(Mutability::Not),
        BY_MUT => ByRef::Yes(Mutability::Mut),
        _ => ByRef::No,
    };
    BindingMode(by_ref, Mutability::Not)
}
