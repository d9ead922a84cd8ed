//! Stand-in for closure captures, which no image has.

#[derive(Debug, Clone, PartialEq, Eq)]
pub struct Place;

#[derive(Debug, Clone, Copy, PartialEq, Eq)]
pub enum BorrowKind {
    Immutable,
    UniqueImmutable,
    Mutable,
}
