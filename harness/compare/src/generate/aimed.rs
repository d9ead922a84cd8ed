//! Images aimed at one refusal: a fitting image, one of whose patterns is changed so that a walk
//! that reaches it is likely refused by a number that is asked for.

use image::kinds::*;
use image::{ABSENT, Tables};

use crate::generate::fitting;
use crate::rng::Rng;

/// An image aimed at a refusal from 3 to 13, or at 4 with one of its reasons.
pub fn image(rng: &mut Rng, number: u16) -> Tables {
    let mut m = fitting::image(rng, 0);
    let at = rng.below(m.patterns.len());
    let extra = m.add_words(&[]);
    let row = m.patterns[at];
    let kind = |kind: u16, words: [u16; 4]| {
        let [a, b, c, d] = words;
        [kind, row[1], row[2], a, b, c, d]
    };
    let any_variant = |rng: &mut Rng, m: &Tables| match m.variants.len() {
        0 => ABSENT,
        rows => rng.row(rows),
    };
    m.patterns[at] = match number {
        3 => kind(rng.pick(&[MISSING, REST, NOT_NULL]), [0; 4]),
        4 => mismatch(rng, &m, row, extra),
        5 => {
            let inner = m.patterns.len() as u16;
            return with_field(rng, m, at, inner);
        }
        6 => unsupported(rng, &mut m, row),
        7 => {
            kind(rng.pick(&[TUPLE, TUPLE_STRUCT]), [extra, 0, rng.between(1, 3) as u16, any_variant(rng, &m)])
        }
        8 => {
            let operand = m.add_operand(CONSTANT, &[7]);
            let slice = m.types.iter().position(|type_| type_[0] == SLICE_TYPE);
            let [_, type_, derefs, ..] = row;
            let type_ = slice.map_or(type_, |slice| slice as u16);
            [PATH, type_, derefs, NAMES_CONSTANT, operand, 0, 0]
        }
        10 => kind(EXPR, [0; 4]),
        11 => with_derefs(row, 16),
        12 => with_derefs(row, row[2] + 1),
        _ => kind(PATH, [UNRESOLVED, 0, 0, 0]),
    };
    m
}

fn with_derefs(mut row: [u16; 7], derefs: u16) -> [u16; 7] {
    row[2] = derefs;
    row
}

/// A Tuple, Slice, Ref or variant where the place may have another type.
fn mismatch(rng: &mut Rng, m: &Tables, row: [u16; 7], extra: u16) -> [u16; 7] {
    let [_, type_, derefs, ..] = row;
    let variant = if m.variants.is_empty() { ABSENT } else { rng.row(m.variants.len()) };
    let [kind, a, b, c, d] = match rng.below(4) {
        0 => [TUPLE, extra, 0, ABSENT, 0],
        1 => [SLICE, extra, 0, 0, ABSENT],
        2 => [TUPLE_STRUCT, extra, 0, ABSENT, variant],
        _ => [RECORD, extra, 0, variant, 0],
    };
    [kind, type_, derefs, a, b, c, d]
}

/// A variant that is absent, a path that leads nowhere useful, Box, Deref, or an odd literal.
fn unsupported(rng: &mut Rng, m: &mut Tables, row: [u16; 7]) -> [u16; 7] {
    let [_, type_, derefs, ..] = row;
    let operand = match rng.below(4) {
        0 => m.add_operand(CONSTANT, &[1]),
        1 => m.add_operand(FLOAT, &[1, 2]),
        2 => m.add_operand(INT, &7i128.to_le_bytes()),
        _ => m.add_operand(OTHER, &[]),
    };
    let [kind, a, b, c, d] = match rng.below(7) {
        0 => [RECORD, 0, 0, ABSENT, 0],
        1 => [TUPLE_STRUCT, 0, 0, ABSENT, ABSENT],
        2 => [PATH, NAMES_OTHER, 0, 0, 0],
        3 => [rng.pick(&[BOX, DEREF]), 0, 0, 0, 0],
        4 => [RANGE, operand, ABSENT, 0, 0],
        5 => [RANGE, ABSENT, operand, 1, 0],
        _ => [LIT, operand, 0, 0, 0],
    };
    [kind, type_, derefs, a, b, c, d]
}

/// Puts a Record with a field that is absent or past the fields over the root.
fn with_field(rng: &mut Rng, mut m: Tables, at: usize, root: u16) -> Tables {
    let records: Vec<usize> = (0..m.patterns.len()).filter(|&p| m.patterns[p][0] == RECORD).collect();
    match records.is_empty() {
        true => {
            let variant = if m.variants.is_empty() { ABSENT } else { rng.row(m.variants.len()) };
            let field = rng.pick(&[ABSENT, 3, 4]);
            let list = m.add_words(&[field, root - 1]);
            let adt =
                m.types.iter().position(|row| row[0] == ADT && (row[1]..row[1] + row[2]).contains(&variant));
            let type_ = adt.unwrap_or(at.min(m.types.len() - 1)) as u16;
            m.add_pattern(RECORD, type_, 0, [list, 1, variant, 0]);
        }
        false => {
            let row = m.patterns[rng.pick(&records)];
            if row[4] > 0 {
                m.list[usize::from(row[3]) + 2 * rng.below(row[4].into())] = rng.pick(&[3, 4, ABSENT]);
            }
        }
    }
    m
}
