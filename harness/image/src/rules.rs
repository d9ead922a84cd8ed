//! The rules on tables that document 01 gives; an image that breaks one is refused by number 1.

use std::collections::HashSet;

use crate::kinds::*;
use crate::{ABSENT, Tables};

/// Counts, rows and uses all keep the rules.
pub fn keeps_all_rules(m: &Tables) -> bool {
    counts_keep(m)
        && m.types.iter().all(|row| type_keeps(m, row))
        && all_differ(m.types.iter().flat_map(|row| adt_variants(m, row)))
        && m.variants.iter().all(|row| variant_keeps(m, row))
        && m.patterns.iter().enumerate().all(|(number, row)| {
            pattern_keeps(m, row) && m.subpatterns(row).iter().all(|&s| usize::from(s) < number)
        })
        && all_differ(m.patterns.iter().flat_map(|row| m.subpatterns(row)))
        && m.bindings.iter().all(|&[type_, picked]| m.is_type(type_) && picked != ABSENT)
}

fn counts_keep(m: &Tables) -> bool {
    m.types.len() <= 256
        && m.variants.len() <= 512
        && (1..=512).contains(&m.patterns.len())
        && m.bindings.len() <= 256
        && m.list.len() <= 2048
        && m.data.len() <= 16384
}

fn all_differ(mut numbers: impl Iterator<Item = u16>) -> bool {
    let mut seen = HashSet::new();
    numbers.all(|number| seen.insert(number))
}

/// Start and count lie in a table of this length.
fn within(start: u16, count: usize, length: usize) -> bool {
    usize::from(start) + count <= length
}

fn type_keeps(m: &Tables, &[kind, a, b, c, copy]: &[u16; 5]) -> bool {
    let of_kind = match kind {
        INTEGER => [1, 2, 4, 8, 16].contains(&a) && b != ABSENT,
        BOOL | CHAR | STR => true,
        TUPLE_TYPE => m.are_types(a, b),
        ADT => {
            let count_keeps = match c {
                STRUCT | UNION => b == 1,
                ENUM => (1..=64).contains(&b),
                _ => false,
            };
            count_keeps && within(a, b.into(), m.variants.len())
        }
        REFERENCE | SLICE_TYPE => m.is_type(a),
        ARRAY => m.is_type(a) && b != ABSENT,
        _ => false,
    };
    of_kind && copy != ABSENT
}

fn adt_variants(m: &Tables, &[kind, a, b, _, _]: &[u16; 5]) -> Vec<u16> {
    let end = (usize::from(a) + usize::from(b)).min(m.variants.len());
    if kind == ADT { (a..end as u16).collect() } else { Vec::new() }
}

fn variant_keeps(m: &Tables, &[first, count, offset]: &[u16; 3]) -> bool {
    m.are_types(first, count) && within(offset, 16, m.data.len())
}

fn pattern_keeps(m: &Tables, &[kind, type_, derefs, a, b, c, d]: &[u16; 7]) -> bool {
    let listed = |count: usize| within(a, count, m.list.len());
    let variant_or_absent = |v: u16| v == ABSENT || usize::from(v) < m.variants.len();
    let end_keeps = |start: u16| start == ABSENT || m.holds(start);
    let of_kind = match kind {
        TUPLE | OR => listed(b.into()),
        RECORD => listed(2 * usize::from(b)) && variant_or_absent(c),
        RANGE => end_keeps(a) && end_keeps(b) && c != ABSENT,
        SLICE => listed(usize::from(b) + usize::from(c)),
        PATH => path_keeps(m, a, b),
        LIT => m.holds(a),
        BIND => usize::from(a) < m.bindings.len() && c <= 2 && d <= 2,
        TUPLE_STRUCT => listed(b.into()) && variant_or_absent(d),
        _ => kind <= DEREF,
    };
    of_kind && m.is_type(type_) && derefs <= 16
}

fn path_keeps(m: &Tables, a: u16, b: u16) -> bool {
    match a {
        NAMES_VARIANT => usize::from(b) < m.variants.len(),
        NAMES_BINDING => usize::from(b) < m.bindings.len(),
        NAMES_CONSTANT => m.holds(b) && m.list[usize::from(b)] == CONSTANT,
        _ => a <= NAMES_OTHER,
    }
}

impl Tables {
    fn is_type(&self, type_: u16) -> bool {
        usize::from(type_) < self.types.len()
    }

    fn are_types(&self, start: u16, count: u16) -> bool {
        within(start, count.into(), self.list.len())
            && self.words(start, count.into()).iter().all(|&word| self.is_type(word))
    }

    /// The words of a pattern that stand for subpatterns.
    pub fn subpatterns(&self, &[kind, _, _, a, b, c, d]: &[u16; 7]) -> Vec<u16> {
        let present = |word: u16| (word != ABSENT).then_some(word);
        match kind {
            TUPLE | OR | TUPLE_STRUCT => self.words(a, b.into()).to_vec(),
            RECORD => {
                self.words(a, 2 * usize::from(b)).chunks(2).filter_map(|it| it.get(1).copied()).collect()
            }
            SLICE => {
                let mut items = self.words(a, usize::from(b) + usize::from(c)).to_vec();
                items.extend(present(d));
                items
            }
            BIND => present(b).into_iter().collect(),
            REF => vec![a],
            _ => Vec::new(),
        }
    }

    /// A whole operand starts at this word of the list.
    fn holds(&self, start: u16) -> bool {
        let Some(operand) = self.operand(start) else { return false };
        let value = |bytes: &[u8]| bytes.iter().rev().fold(0u32, |sum, &byte| sum << 8 | u32::from(byte));
        match operand.kind {
            INT | UINT => operand.bytes.len() == 16,
            CHARACTER => operand.bytes.len() == 4 && char::from_u32(value(operand.bytes)).is_some(),
            BOOLEAN => operand.bytes.len() == 1 && operand.bytes[0] <= 1,
            CONSTANT => (1..=16).contains(&operand.bytes.len()),
            _ => (STRING..=OTHER).contains(&operand.kind),
        }
    }
}
