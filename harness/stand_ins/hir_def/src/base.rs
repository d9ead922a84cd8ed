//! Stand-in for what base_db and span say of a crate: there is one, of the 2021 edition.

use crate::DefDatabase;

#[derive(Debug, Clone, Copy, PartialEq, Eq)]
pub struct Crate;

#[derive(Debug, Clone, Copy, PartialEq, Eq)]
pub enum Edition {
    Edition2021,
}

pub struct CrateData {
    pub edition: Edition,
}

impl Crate {
    pub fn data(self, _: &dyn DefDatabase) -> CrateData {
        CrateData { edition: Edition::Edition2021 }
    }
}
