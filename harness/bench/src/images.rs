//! What is lowered: fitting patterns by chance, by how many nodes they have, and the largest patterns.

use compare::generate::fitting;
use compare::rng::Rng;
use image::kinds::*;
use image::{ABSENT, Tables};

/// Images that are measured together.
pub struct Group {
    pub name: String,
    pub images: Vec<Tables>,
    /// The scope that is handed in has so many entries.
    pub entries: usize,
}

const SEED: u64 = 1851;
/// So many images of each size, and so many tries for them.
const IMAGES: usize = 100;
const TRIES: usize = 400_000;
const SIZES: [(usize, usize); 7] = [(1, 1), (2, 3), (4, 7), (8, 15), (16, 31), (32, 63), (64, 127)];

pub fn groups() -> Vec<Group> {
    let empty =
        |&(first, last): &(usize, usize)| Group { name: sized(first, last), images: Vec::new(), entries: 0 };
    let mut groups: Vec<Group> = SIZES.iter().map(empty).collect();
    let mut rng = Rng::new(SEED);
    for _ in 0..TRIES {
        let m = fitting::image(&mut rng, 0);
        let nodes = m.patterns.len();
        let size = SIZES.iter().position(|&(first, last)| (first..=last).contains(&nodes));
        if let Some(group) = size.map(|size| &mut groups[size])
            && group.images.len() < IMAGES
        {
            group.images.push(m);
        }
    }
    let largest = [
        ("127 literals in one Or, 128 nodes", or_of_literals(), 0),
        ("a tuple of 255 ranges, 256 nodes", tuple_of(255, range), 0),
        ("a tuple of 511 Binds, 512 nodes", tuple_of(511, bind), 0),
        ("30 Ors over a tuple of 481 wildcards, 512 nodes", nested_ors(), 0),
        ("512 Binds in each other, 512 nodes", nested_binds(), 0),
        ("511 Binds of 256 bindings, 512 nodes", tuple_of_bindings(), 0),
        ("the same with 512 entries handed in", tuple_of_bindings(), 512),
        ("the same with 768 entries handed in", tuple_of_bindings(), 768),
    ];
    groups.extend(largest.map(|(name, m, entries)| Group {
        name: name.to_owned(),
        images: vec![m],
        entries,
    }));
    groups
}

fn sized(first: usize, last: usize) -> String {
    if first == last { "by chance, 1 node".to_owned() } else { format!("by chance, {first} to {last} nodes") }
}

fn with_u8() -> Tables {
    let mut m = Tables::default();
    m.add_integer_type(1, 0);
    m.bindings.push([0, 1]);
    m
}

fn or_of_literals() -> Tables {
    let mut m = with_u8();
    let literal = |number: i128| {
        let operand = m.add_operand(INT, &number.to_le_bytes());
        m.add_pattern(LIT, 0, 0, [operand, 0, 0, 0])
    };
    let items: Vec<u16> = (0..127).map(literal).collect();
    let list = m.add_words(&items);
    m.add_pattern(OR, 0, 0, [list, 127, 0, 0]);
    m
}

/// A lone wildcard: besides its reading, its lowering is the clearing of the tables.
pub fn lone() -> Tables {
    let mut m = with_u8();
    wild(&mut m);
    m
}

fn range(m: &mut Tables) -> u16 {
    let operand = if m.list.is_empty() { m.add_operand(UINT, &7i128.to_le_bytes()) } else { 0 };
    m.add_pattern(RANGE, 0, 0, [operand, operand, 0, 0])
}

fn bind(m: &mut Tables) -> u16 {
    m.add_pattern(BIND, 0, 0, [0, ABSENT, 0, 0])
}

fn wild(m: &mut Tables) -> u16 {
    m.add_pattern(WILD, 0, 0, [0; 4])
}

fn tuple_of(count: usize, item: impl Fn(&mut Tables) -> u16) -> Tables {
    let mut m = with_u8();
    let items: Vec<u16> = (0..count).map(|_| item(&mut m)).collect();
    let types = m.add_words(&vec![0; count]);
    let whole = m.add_type(TUPLE_TYPE, types, count as u16, 0, 1);
    let list = m.add_words(&items);
    m.add_pattern(TUPLE, whole, 0, [list, count as u16, ABSENT, 0]);
    m
}

/// Each of the first 256 Binds records a local; the live marks of the others find theirs held.
fn tuple_of_bindings() -> Tables {
    let mut m = tuple_of(511, bind);
    m.bindings = vec![[0, 1]; 256];
    for (number, row) in (0..).zip(&mut m.patterns[..511]) {
        row[3] = number % 256;
    }
    m
}

fn nested_ors() -> Tables {
    let mut m = tuple_of(481, wild);
    let mut inner = 481;
    for _ in 0..30 {
        let list = m.add_words(&[inner]);
        inner = m.add_pattern(OR, 1, 0, [list, 1, 0, 0]);
    }
    m
}

fn nested_binds() -> Tables {
    let mut m = with_u8();
    let mut inner = ABSENT;
    for _ in 0..512 {
        inner = m.add_pattern(BIND, 0, 0, [0, inner, 0, 0]);
    }
    m
}
