//! Names as numbers: a field's is its number, and 65535 is the name of none.

use crate::DefDatabase;
use crate::base::Edition;

#[derive(Debug, Clone, PartialEq, Eq)]
pub struct Name(pub u16);

impl Name {
    pub fn display(&self, _: &dyn DefDatabase, _: Edition) -> u16 {
        self.0
    }
}
