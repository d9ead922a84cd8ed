//! Stand-in for the errors of evaluating constants; an image's constants are evaluated.

use std::marker::PhantomData;

#[derive(Debug, Clone, PartialEq, Eq)]
pub struct ConstEvalError<'db> {
    of: PhantomData<&'db ()>,
}
