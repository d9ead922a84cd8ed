//! Random type tables whose types name lower ones only, so that each has a finite value.

use image::Tables;
use image::kinds::*;

use crate::rng::Rng;

/// Scalars, str, a reference to str, and so many types made of lower ones.
pub fn types(rng: &mut Rng, total: usize) -> Tables {
    let mut m = Tables::default();
    for _ in 0..rng.between(1, 3) {
        let size = rng.pick(&[1, 1, 2, 4, 8, 16]);
        let signed = rng.below(2) as u16;
        m.add_integer_type(size, signed);
    }
    m.add_type(BOOL, 0, 0, 0, 1);
    m.add_type(CHAR, 0, 0, 0, 1);
    let text = m.add_type(STR, 0, 0, 0, 0);
    m.add_type(REFERENCE, text, 0, 0, 1);
    for _ in 0..total {
        compound(&mut m, rng);
    }
    m
}

fn compound(m: &mut Tables, rng: &mut Rng) {
    match rng.below(10) {
        0 | 1 => {
            let fields = some_types(m, rng, 4);
            m.add_tuple_type(&fields);
        }
        2 | 3 => adt(m, rng, STRUCT, 1),
        4..=6 => {
            let count = rng.between(1, 4);
            adt(m, rng, ENUM, count);
        }
        7 => reference(m, rng),
        8 => {
            let of = sized(m, rng);
            let length = rng.below(5) as u16;
            m.add_type(ARRAY, of, length, 0, 1);
        }
        _ if rng.percent(10) => adt(m, rng, UNION, 1),
        _ => {
            let of = sized(m, rng);
            let slice = m.add_type(SLICE_TYPE, of, 0, 0, 0);
            m.add_type(REFERENCE, slice, 0, 0, 1);
        }
    }
}

fn reference(m: &mut Tables, rng: &mut Rng) {
    let to = rng.row(m.types.len());
    m.add_type(REFERENCE, to, 0, 0, 1);
}

/// A type that is neither str nor a slice, so that a value of it may lie in another.
fn sized(m: &Tables, rng: &mut Rng) -> u16 {
    loop {
        let type_ = rng.row(m.types.len());
        if ![STR, SLICE_TYPE].contains(&m.types[usize::from(type_)][0]) {
            return type_;
        }
    }
}

fn some_types(m: &Tables, rng: &mut Rng, most: usize) -> Vec<u16> {
    (0..rng.between(0, most)).map(|_| sized(m, rng)).collect()
}

/// An ADT with so many variants, whose discriminants differ.
fn adt(m: &mut Tables, rng: &mut Rng, c: u16, count: usize) {
    let first = m.variants.len() as u16;
    let mut discriminant = rng.between(0, 3) as i128 - 1;
    for _ in 0..count {
        let fields = some_types(m, rng, 3);
        m.add_variant(&fields, discriminant);
        discriminant += rng.between(1, 2) as i128;
    }
    m.add_adt(c, first, count as u16);
}
