//! Stand-in for salsa: only the derive that the published types name.

pub use macros::SalsaValue;
