//! Images at each limit of document 01, and one past it.

use image::kinds::*;
use image::{ABSENT, Tables};

/// All of them, with a name each.
pub fn images() -> Vec<(String, Vec<u8>)> {
    let mut found = Vec::new();
    let mut add = |name: String, m: Tables| found.push((name, m.encode()));
    for past in [0, 1] {
        for (name, m) in tables_at(past) {
            add(format!("{name} {past} past the limit"), m);
        }
    }
    for n in [1, 2, 50, 125, 126, 127, 128, 129, 170, 171, 172, 254, 255, 256, 257] {
        add(format!("Or of {n} literals"), or_of_literals(n));
        add(format!("tuple of {n} literals"), tuple_of(n, 0, literal));
        add(format!("tuple of {n} constants"), tuple_of(n, 0, constant));
        add(format!("tuple of {n} ranges"), tuple_of(n, 0, range));
        add(format!("tuple of {n} literals with 256 bindings"), tuple_of(n, 256, literal));
        add(format!("tuple of {n} variants"), tuple_of(n, 0, variant));
        add(format!("tuple of {n} variants with 256 bindings"), tuple_of(n, 256, variant));
    }
    for n in 502..=511 {
        add(format!("tuple of {n} literals"), tuple_of(n, 0, same_literal));
        add(format!("tuple of {n} Binds"), tuple_of(n, 1, bind));
        add(format!("tuple of {n} Binds and literals"), tuple_of(n, 1, bind_or_literal));
    }
    for n in 0..=8 {
        add(format!("tuple of 100 constants, 310 Binds and {n} variants"), mixed(100, 310, n));
    }
    for n in 0..=18 {
        add(format!("{n} derefs of a reference to itself"), derefs_of_loop(n));
        add(format!("{n} tuples in each other"), nested_tuples(n));
        add(format!("{n} references in each other"), nested_refs(n));
    }
    for n in [2, 3, 255, 256, 257, 508, 509, 510, 511] {
        add(format!("slice of {n} suffix Binds"), suffix_binds(n));
    }
    for n in 0..=17 {
        add(format!("{n} arrays in each other, each the second last item"), nested_suffixes(n));
    }
    for n in [1, 2, 3, 4, 5, 6, 7, 8, 30] {
        add(format!("{n} Ors over one literal"), nested_ors(n));
    }
    found
}

fn with_u8() -> Tables {
    let mut m = Tables::default();
    m.add_integer_type(1, 0);
    m
}

fn tables_at(past: usize) -> Vec<(&'static str, Tables)> {
    let wild = |m: &mut Tables| {
        m.add_pattern(WILD, 0, 0, [0; 4]);
    };
    let filled = |fill: &dyn Fn(&mut Tables)| {
        let mut m = with_u8();
        fill(&mut m);
        wild(&mut m);
        m
    };
    vec![
        ("types", filled(&|m| m.types.resize(256 + past, [BOOL, 0, 0, 0, 1]))),
        (
            "variants",
            filled(&|m| {
                m.data.resize(16, 0);
                m.variants.resize(512 + past, [0, 0, 0]);
            }),
        ),
        ("patterns", filled(&|m| m.patterns.resize(511 + past, [WILD, 0, 0, 0, 0, 0, 0]))),
        ("bindings", filled(&|m| m.bindings.resize(256 + past, [0, 1]))),
        ("list", filled(&|m| m.list.resize(2048 + past, 9))),
        ("data", filled(&|m| m.data.resize(16384 + past, 1))),
        (
            "enum",
            filled(&|m| {
                m.data.resize(16, 0);
                m.variants.resize(64 + past, [0, 0, 0]);
                m.add_adt(ENUM, 0, 64 + past as u16);
            }),
        ),
        ("derefs", derefs_of_loop(16 + past as u16)),
    ]
}

fn literal(m: &mut Tables, n: usize) -> u16 {
    let operand = m.add_operand(INT, &(n as i128 % 256).to_le_bytes());
    m.add_pattern(LIT, 0, 0, [operand, 0, 0, 0])
}

fn same_literal(m: &mut Tables, _: usize) -> u16 {
    let operand = shared(m, UINT, &7i128.to_le_bytes());
    m.add_pattern(LIT, 0, 0, [operand, 0, 0, 0])
}

/// An operand whose words stand once, at the list's start.
fn shared(m: &mut Tables, kind: u16, bytes: &[u8]) -> u16 {
    match m.list.is_empty() {
        true => m.add_operand(kind, bytes),
        false => 0,
    }
}

fn constant(m: &mut Tables, _: usize) -> u16 {
    let operand = shared(m, CONSTANT, &[7]);
    m.add_pattern(PATH, 0, 0, [NAMES_CONSTANT, operand, 0, 0])
}

fn range(m: &mut Tables, _: usize) -> u16 {
    let operand = shared(m, UINT, &7i128.to_le_bytes());
    m.add_pattern(RANGE, 0, 0, [operand, operand, 0, 0])
}

fn bind(m: &mut Tables, n: usize) -> u16 {
    m.add_pattern(BIND, 0, 0, [0, ABSENT, (n % 3) as u16, 0])
}

fn bind_or_literal(m: &mut Tables, n: usize) -> u16 {
    if n < 3 { same_literal(m, n) } else { bind(m, n) }
}

/// A Path to the variant of an enum, the tuple's second type.
fn variant(m: &mut Tables, _: usize) -> u16 {
    if m.variants.is_empty() {
        m.add_variant(&[], 5);
        m.add_adt(ENUM, 0, 1);
    }
    m.add_pattern(PATH, 1, 0, [NAMES_VARIANT, 0, 0, 0])
}

/// A tuple of n patterns of one type, over so many bindings.
fn tuple_of(n: usize, bindings: usize, item: impl Fn(&mut Tables, usize) -> u16) -> Tables {
    let mut m = with_u8();
    m.bindings.resize(bindings, [0, 1]);
    let items: Vec<u16> = (0..n).map(|number| item(&mut m, number)).collect();
    let type_ = m.patterns[0][1];
    let types = m.add_words(&vec![type_; n]);
    let whole = m.add_type(TUPLE_TYPE, types, n as u16, 0, 1);
    let list = m.add_words(&items);
    m.add_pattern(TUPLE, whole, 0, [list, n as u16, ABSENT, 0]);
    m
}

/// A tuple of constants, Binds and variants: 4, 2 and 2 statements each.
fn mixed(constants: usize, binds: usize, variants: usize) -> Tables {
    let mut m = with_u8();
    m.bindings.push([0, 1]);
    let mut items: Vec<u16> = (0..constants).map(|number| constant(&mut m, number)).collect();
    items.extend((0..binds).map(|number| bind(&mut m, number)).collect::<Vec<u16>>());
    items.extend((0..variants).map(|number| variant(&mut m, number)).collect::<Vec<u16>>());
    let field_types: Vec<u16> = m.patterns.iter().map(|row| row[1]).collect();
    let types = m.add_words(&field_types);
    let whole = m.add_type(TUPLE_TYPE, types, items.len() as u16, 0, 1);
    let list = m.add_words(&items);
    m.add_pattern(TUPLE, whole, 0, [list, items.len() as u16, ABSENT, 0]);
    m
}

fn or_of_literals(n: usize) -> Tables {
    let mut m = with_u8();
    let items: Vec<u16> = (0..n).map(|number| literal(&mut m, number)).collect();
    let list = m.add_words(&items);
    m.add_pattern(OR, 0, 0, [list, n as u16, 0, 0]);
    m
}

/// A reference to its own type, so that any number of derefs comes to it.
fn derefs_of_loop(n: u16) -> Tables {
    let mut m = Tables::default();
    m.add_type(REFERENCE, 0, 0, 0, 1);
    m.add_pattern(WILD, 0, n, [0; 4]);
    m
}

fn nested_tuples(n: u16) -> Tables {
    let mut m = with_u8();
    let mut inner = m.add_pattern(WILD, 0, 0, [0; 4]);
    for depth in 0..n {
        let whole = m.add_tuple_type(&[depth]);
        let list = m.add_words(&[inner]);
        inner = m.add_pattern(TUPLE, whole, 0, [list, 1, ABSENT, 0]);
    }
    m
}

/// A slice pattern of n Binds, all of them suffix items, and no rest.
fn suffix_binds(n: usize) -> Tables {
    let mut m = with_u8();
    m.bindings.push([0, 1]);
    let items: Vec<u16> = (0..n).map(|number| bind(&mut m, number)).collect();
    let whole = m.add_type(SLICE_TYPE, 0, 0, 0, 0);
    let list = m.add_words(&items);
    m.add_pattern(SLICE, whole, 0, [list, 0, n as u16, ABSENT]);
    m
}

/// An array of its own type, so that arrays may lie in each other, over a Bind.
fn nested_suffixes(n: u16) -> Tables {
    let mut m = Tables::default();
    m.add_type(ARRAY, 0, 2, 0, 1);
    m.bindings.push([0, 1]);
    let mut inner = bind(&mut m, 0);
    for _ in 0..n {
        let last = m.add_pattern(WILD, 0, 0, [0; 4]);
        let list = m.add_words(&[inner, last]);
        inner = m.add_pattern(SLICE, 0, 0, [list, 0, 2, ABSENT]);
    }
    m
}

fn nested_refs(n: u16) -> Tables {
    let mut m = Tables::default();
    m.add_type(REFERENCE, 0, 0, 0, 1);
    let mut inner = m.add_pattern(WILD, 0, 0, [0; 4]);
    for _ in 0..n {
        inner = m.add_pattern(REF, 0, 0, [inner, 0, 0, 0]);
    }
    m
}

fn nested_ors(n: usize) -> Tables {
    let mut m = with_u8();
    let mut inner = literal(&mut m, 7);
    for _ in 0..n {
        let list = m.add_words(&[inner]);
        inner = m.add_pattern(OR, 0, 0, [list, 1, 0, 0]);
    }
    m
}
