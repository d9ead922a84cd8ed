//! Random images that keep every rule and need not fit: types may hold themselves, lists may
//! overlap, variants may belong to no type, and words that are not looked at are any.

use image::kinds::*;
use image::{ABSENT, Tables};

use crate::rng::Rng;

const OPERAND_BYTES: usize = 24;

/// A random image; its operands stand at the list's start, its data begin with theirs.
pub fn image(rng: &mut Rng) -> Tables {
    let mut m = Tables::default();
    let types = rng.between(1, 12);
    operands(&mut m, rng);
    let words = m.list.len();
    m.list.extend((0..rng.between(0, 12)).map(|_| rng.row(types)));
    variants(&mut m, rng, words);
    any_types(&mut m, rng, types, words);
    for _ in 0..rng.between(1, 5) {
        let type_ = rng.row(types);
        let picked = rng.below(3) as u16;
        m.add_binding(type_, picked);
    }
    patterns(&mut m, rng);
    m
}

fn operands(m: &mut Tables, rng: &mut Rng) {
    m.data = (0..OPERAND_BYTES).map(|_| rng.next() as u8).collect();
    for kind in INT..=OTHER {
        let bytes = match kind {
            INT | UINT => rng.pick(&[0i128, 7, 255, -1, 1 << 70]).to_le_bytes().to_vec(),
            CHARACTER => u32::from(rng.pick(&['a', '\u{10FFFF}'])).to_le_bytes().to_vec(),
            BOOLEAN => vec![rng.below(2) as u8],
            CONSTANT => vec![rng.next() as u8; rng.between(1, 16)],
            _ => vec![rng.next() as u8; rng.between(0, 20)],
        };
        m.add_operand(kind, &bytes);
    }
}

/// A part of the list's words that name types.
fn type_words(m: &Tables, rng: &mut Rng, first: usize, most: usize) -> (u16, u16) {
    let start = rng.between(first, m.list.len());
    let count = rng.between(0, most.min(m.list.len() - start));
    (start as u16, count as u16)
}

fn variants(m: &mut Tables, rng: &mut Rng, first: usize) {
    for _ in 0..rng.between(1, 8) {
        let (start, count) = type_words(m, rng, first, 3);
        let offset = rng.between(0, m.data.len() - 16) as u16;
        m.variants.push([start, count, offset]);
    }
}

fn any_types(m: &mut Tables, rng: &mut Rng, total: usize, first_word: usize) {
    let mut free = 0;
    for _ in 0..total {
        let copy = rng.below(3) as u16;
        let any = rng.row(total);
        let kind = rng.between(1, 9) as u16;
        match kind {
            INTEGER => {
                let size = rng.pick(&[1, 2, 4, 8, 16]);
                let signed = rng.below(3) as u16;
                m.add_type(kind, size, signed, any, copy)
            }
            TUPLE_TYPE => {
                let (start, count) = type_words(m, rng, first_word, 4);
                m.add_type(kind, start, count, any, copy)
            }
            ADT if free < m.variants.len() => {
                let c = rng.pick(&[STRUCT, ENUM, ENUM, ENUM, UNION]);
                let most = if c == ENUM { m.variants.len() - free } else { 1 };
                let count = rng.between(1, most);
                free += count;
                m.add_type(kind, (free - count) as u16, count as u16, c, copy)
            }
            ADT => m.add_type(BOOL, any, any, any, copy),
            ARRAY => {
                let length = rng.below(5) as u16;
                m.add_type(kind, any, length, any, copy)
            }
            _ => m.add_type(kind, any, any, any, copy),
        };
    }
}

fn patterns(m: &mut Tables, rng: &mut Rng) {
    let mut unused: Vec<u16> = Vec::new();
    let total = rng.between(1, 14);
    for _ in 0..total {
        let kind = rng.pick(&KINDS_BY_WEIGHT);
        let words = words(m, rng, kind, &mut unused);
        let type_ = rng.row(m.types.len());
        let derefs = rng.pick(&[0, 0, 0, 0, 0, 1, 1, 2]);
        unused.push(m.add_pattern(kind, type_, derefs, words));
    }
}

/// Kinds that hold others stand more often, and kinds that are refused less often.
const KINDS_BY_WEIGHT: [u16; 34] = [
    MISSING,
    REST,
    NOT_NULL,
    WILD,
    WILD,
    WILD,
    TUPLE,
    TUPLE,
    TUPLE,
    OR,
    OR,
    OR,
    RECORD,
    RECORD,
    RANGE,
    RANGE,
    SLICE,
    SLICE,
    SLICE,
    PATH,
    PATH,
    PATH,
    LIT,
    LIT,
    BIND,
    BIND,
    BIND,
    TUPLE_STRUCT,
    TUPLE_STRUCT,
    REF,
    REF,
    EXPR,
    BOX,
    DEREF,
];

fn words(m: &mut Tables, rng: &mut Rng, kind: u16, unused: &mut Vec<u16>) -> [u16; 4] {
    let operand = |rng: &mut Rng| 3 * rng.below(10) as u16;
    let end = |rng: &mut Rng| if rng.percent(70) { operand(rng) } else { ABSENT };
    let any = rng.next() as u16;
    match kind {
        TUPLE | OR | TUPLE_STRUCT => {
            let items = some(rng, unused);
            let ellipsis = if rng.percent(40) { rng.below(4) as u16 } else { ABSENT };
            let variant = optional(rng, m.variants.len());
            [m.add_words(&items), items.len() as u16, ellipsis, variant]
        }
        RECORD => {
            let items = some(rng, unused);
            let field = |rng: &mut Rng| rng.pick(&[0, 0, 1, 1, 2, ABSENT]);
            let pairs: Vec<[u16; 2]> = items.iter().map(|&item| [field(rng), item]).collect();
            let variant = optional(rng, m.variants.len());
            [m.add_words(pairs.as_flattened()), items.len() as u16, variant, any]
        }
        RANGE => [end(rng), end(rng), rng.below(3) as u16, any],
        SLICE => {
            let items = some(rng, unused);
            let rest = if rng.percent(50) { unused.pop() } else { None };
            let prefix = rng.between(0, items.len());
            let suffix = (items.len() - prefix) as u16;
            [m.add_words(&items), prefix as u16, suffix, rest.unwrap_or(ABSENT)]
        }
        PATH => path(m, rng, any),
        LIT => [operand(rng), any, any, any],
        BIND => {
            let sub = if rng.percent(50) { unused.pop() } else { None };
            let binding = rng.row(m.bindings.len());
            [binding, sub.unwrap_or(ABSENT), rng.below(3) as u16, rng.below(3) as u16]
        }
        REF => {
            let inner = unused.pop().unwrap_or_else(|| m.add_pattern(WILD, 0, 0, [any; 4]));
            [inner, any, any, any]
        }
        _ => [any; 4],
    }
}

fn path(m: &Tables, rng: &mut Rng, any: u16) -> [u16; 4] {
    let kind =
        rng.pick(&[UNRESOLVED, NAMES_VARIANT, NAMES_VARIANT, NAMES_BINDING, NAMES_CONSTANT, NAMES_OTHER]);
    let names = match kind {
        NAMES_VARIANT => rng.row(m.variants.len()),
        NAMES_BINDING => rng.row(m.bindings.len()),
        NAMES_CONSTANT => 3 * (CONSTANT - 1),
        _ => any,
    };
    [kind, names, any, any]
}

fn optional(rng: &mut Rng, rows: usize) -> u16 {
    if rng.percent(90) { rng.row(rows) } else { ABSENT }
}

/// Up to three of the patterns that nothing uses yet.
fn some(rng: &mut Rng, unused: &mut Vec<u16>) -> Vec<u16> {
    let count = rng.between(0, unused.len().min(3));
    (0..count).map(|_| unused.swap_remove(rng.below(unused.len()))).collect()
}
