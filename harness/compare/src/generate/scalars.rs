//! Literals, constants and ranges of scalar types.

use image::kinds::*;

use crate::generate::fitting::Maker;
use crate::tree::{Kind, Operand};

/// The least and the greatest value of an integer type; of unsigned 16 bytes the greatest is cut
/// to what an i128 has.
pub fn bounds(size: u16, signed: bool) -> (i128, i128) {
    let bits = 8 * u32::from(size);
    match (signed, bits) {
        (true, 128) => (i128::MIN, i128::MAX),
        (false, 128) => (0, i128::MAX),
        (true, _) => (-(1 << (bits - 1)), (1 << (bits - 1)) - 1),
        (false, _) => (0, (1 << bits) - 1),
    }
}

impl Maker<'_> {
    pub(super) fn scalar(&mut self, type_: u16) -> Kind {
        let [kind, ..] = self.m.types[usize::from(type_)];
        match self.rng.below(if kind == BOOL { 2 } else { 4 }) {
            0 => Kind::Lit(self.literal(type_)),
            1 => Kind::Constant(self.constant(type_)),
            _ => self.range(type_),
        }
    }

    fn range(&mut self, type_: u16) -> Kind {
        let start = self.rng.percent(70).then(|| self.range_end(type_));
        let end = (start.is_none() || self.rng.percent(60)).then(|| self.range_end(type_));
        let half_open = end.is_none() || self.rng.percent(30);
        Kind::Range { start, end, half_open }
    }

    fn range_end(&mut self, type_: u16) -> Operand {
        if self.rng.percent(25) { self.constant(type_) } else { self.literal(type_) }
    }

    /// A value of an integer type: small, or near one of the ends.
    pub(super) fn integer(&mut self, type_: u16) -> i128 {
        let [_, size, signed, _, _] = self.m.types[usize::from(type_)];
        let (least, greatest) = bounds(size, signed == 1);
        let near = self.rng.below(4) as i128;
        match self.rng.below(6) {
            0 => least + near,
            1 => greatest - near,
            2 if least < 0 => -near,
            _ => near,
        }
    }

    fn literal(&mut self, type_: u16) -> Operand {
        let [kind, ..] = self.m.types[usize::from(type_)];
        match kind {
            BOOL => Operand { kind: BOOLEAN, bytes: vec![self.rng.below(2) as u8] },
            CHAR => Operand { kind: CHARACTER, bytes: self.character().to_le_bytes().to_vec() },
            _ => {
                let kind = if self.rng.percent(60) { INT } else { UINT };
                let mut value = self.integer(type_);
                if self.rng.percent(self.slips) {
                    value = value.wrapping_mul(257);
                }
                Operand::integer(if value < 0 { INT } else { kind }, value)
            }
        }
    }

    fn character(&mut self) -> u32 {
        self.rng.pick(&[0, u32::from('a'), u32::from('z'), 0xD7FF, 0xE000, 0x10_FFFF])
    }

    fn constant(&mut self, type_: u16) -> Operand {
        let [kind, size, ..] = self.m.types[usize::from(type_)];
        let bytes = match kind {
            BOOL => vec![self.rng.below(2) as u8],
            CHAR => self.character().to_le_bytes().to_vec(),
            _ => self.integer(type_).to_le_bytes()[..usize::from(size)].to_vec(),
        };
        Operand { kind: CONSTANT, bytes }
    }
}
