//! Stands in for eval.rs: the names that mir.rs hands on.

pub struct Evaluator;
pub struct IsSigned;
pub struct MirEvalError;
pub struct VTableMap;

pub fn interpret_mir() {}
pub fn pad16() {}
pub fn render_const_using_debug_impl() {}
