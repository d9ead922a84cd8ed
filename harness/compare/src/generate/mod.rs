//! The images that are compared: by chance from a seed, and by plan.

pub mod aimed;
pub mod any;
pub mod damage;
pub mod fitting;
pub mod limits;
pub mod scalars;
pub mod small;
pub mod types;
