//! What is compared, and how: images and their answers, calls on a body, and what listings mean.

pub mod calls;
pub mod fits;
pub mod generate;
pub mod judge;
pub mod meaning;
pub mod other;
pub mod parameters;
pub mod plan;
pub mod read_tree;
pub mod records;
pub mod rng;
pub mod run;
pub mod shrink;
pub mod store;
pub mod tree;
