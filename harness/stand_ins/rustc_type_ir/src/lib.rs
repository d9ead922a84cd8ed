//! Stand-in for rustc_type_ir. The published text brings these traits into scope for their
//! methods, which the stand-in types have as their own.

pub trait GenericTypeVisitable<W> {
    fn generic_visit_with(&self, visitor: &mut W);
}

#[derive(Debug, Clone, Copy, PartialEq, Eq)]
pub enum IntTy {
    I128,
}

pub mod inherent {
    pub trait Const {}
    pub trait GenericArgs {}
    pub trait IntoKind {}
    pub trait Ty {}
}
