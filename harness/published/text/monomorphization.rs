//! Stands in for monomorphization.rs: the names that mir.rs hands on.

pub fn monomorphized_mir_body_for_closure_query() {}
pub fn monomorphized_mir_body_query() {}
