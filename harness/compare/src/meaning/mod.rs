//! The meaning of listings, judged by rustc: random fitting patterns and values are written as
//! Rust source, compiled and run; and the listing of the same pattern is run on the same value.

mod form;
mod interpret;
mod run;
mod source;
mod value;
mod way;

pub use run::{Settings, compare};
