//! Patterns, expressions, literals and bindings, with the published names of kinds and fields.

use la_arena::Idx;

use crate::expr_store::path::Path;
use crate::name::Name;

pub type PatId = Idx<Pat>;
pub type ExprId = Idx<Expr>;
pub type BindingId = Idx<Binding>;
pub type LabelId = Idx<Label>;

/// A loop's label; no image has one.
#[derive(Debug)]
pub struct Label;

#[derive(Debug, Clone, PartialEq, Eq)]
pub enum Pat {
    Missing,
    Rest,
    NotNull,
    Wild,
    Tuple { args: Box<[PatId]>, ellipsis: Option<u32> },
    Or(Box<[PatId]>),
    Record { path: Path, args: Box<[RecordFieldPat]>, ellipsis: bool },
    Range { start: Option<ExprId>, end: Option<ExprId>, range_type: RangeOp },
    Slice { prefix: Box<[PatId]>, slice: Option<PatId>, suffix: Box<[PatId]> },
    Path(Path),
    Lit(ExprId),
    Bind { id: BindingId, subpat: Option<PatId> },
    TupleStruct { path: Path, args: Box<[PatId]>, ellipsis: Option<u32> },
    Ref { pat: PatId, mutability: crate::type_ref::Mutability },
    Box { inner: PatId },
    Deref { inner: PatId },
    Expr(ExprId),
}

#[derive(Debug, Clone, PartialEq, Eq)]
pub struct RecordFieldPat {
    pub name: Name,
    pub pat: PatId,
}

#[derive(Debug, Clone, Copy, PartialEq, Eq)]
pub enum RangeOp {
    Exclusive,
    Inclusive,
}

#[derive(Debug, Clone, PartialEq)]
pub enum Expr {
    Missing,
    Literal(Literal),
    Path(Path),
}

#[derive(Debug, Clone, PartialEq)]
pub enum Literal {
    String(Symbol),
    ByteString(Box<[u8]>),
    CString(Box<[u8]>),
    Char(char),
    Bool(bool),
    Int(i128, Option<()>),
    Uint(u128, Option<()>),
    Float(FloatTypeWrapper, Option<()>),
}

/// A string's text; an image's need not be UTF-8.
#[derive(Debug, Clone, PartialEq, Eq)]
pub struct Symbol(pub Text);

#[derive(Debug, Clone, PartialEq, Eq)]
pub struct Text(pub Box<[u8]>);

impl Symbol {
    pub fn as_str(&self) -> &Text {
        &self.0
    }
}

impl Text {
    pub fn len(&self) -> usize {
        self.0.len()
    }

    pub fn as_bytes(&self) -> &[u8] {
        &self.0
    }
}

/// A float literal. The port refuses it; where its value is asked for, the stand-in stops.
#[derive(Debug, Clone, PartialEq)]
pub struct FloatTypeWrapper;

/// What the stand-in stops with where the value of a float literal is asked for.
pub const FLOAT_ASKED: &str = "the value of a float literal";

impl FloatTypeWrapper {
    pub fn to_f128(&self) -> Bits {
        panic!("{FLOAT_ASKED}")
    }

    pub fn to_f64(&self) -> f64 {
        panic!("{FLOAT_ASKED}")
    }

    pub fn to_f32(&self) -> f32 {
        panic!("{FLOAT_ASKED}")
    }

    pub fn to_f16(&self) -> Bits {
        panic!("{FLOAT_ASKED}")
    }
}

/// A float as its bits.
pub struct Bits(u128);

impl Bits {
    pub fn to_bits(&self) -> u128 {
        self.0
    }
}

#[derive(Debug, Clone, Copy, PartialEq, Eq)]
pub enum BindingAnnotation {
    Unannotated,
    Mutable,
    Ref,
}

#[derive(Debug, Clone, PartialEq, Eq)]
pub struct Binding {
    pub mode: BindingAnnotation,
}

#[derive(Debug, Clone, Copy, PartialEq, Eq)]
pub enum Ordering {
    Less,
    Greater,
}

#[derive(Debug, Clone, Copy, PartialEq, Eq)]
pub enum CmpOp {
    Eq { negated: bool },
    Ord { ordering: Ordering, strict: bool },
}

#[derive(Debug, Clone, Copy, PartialEq, Eq)]
pub enum ArithOp {
    Add,
    Mul,
    Sub,
    Div,
    Rem,
    Shl,
    Shr,
    BitXor,
    BitOr,
    BitAnd,
}
