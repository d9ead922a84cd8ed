//! Stand-in for layouts. Only integer literals and float literals ask for a size. Integer types
//! have one; for any other type the port refuses by number 6, and the stand-in has no layout.

use hir_def::base::Crate;

use crate::next_solver::ParamEnv;

#[derive(Debug, Clone, PartialEq, Eq)]
pub enum LayoutError {
    NoInteger,
}

pub struct Layout {
    pub size: Size,
}

#[derive(Debug, Clone, Copy)]
pub struct Size(pub usize);

impl Size {
    pub fn bytes_usize(self) -> usize {
        self.0
    }
}

pub struct ParamEnvAndCrate<'db> {
    pub param_env: ParamEnv<'db>,
    pub krate: Crate,
}

pub struct StoredParamEnvAndCrate;

impl ParamEnvAndCrate<'_> {
    pub fn store(self) -> StoredParamEnvAndCrate {
        StoredParamEnvAndCrate
    }
}
