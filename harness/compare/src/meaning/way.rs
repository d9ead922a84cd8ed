//! Ways to a place: what is matched is a part of the value in the root, behind a projection that is
//! handed in, and the source matches on the same part.

use std::rc::Rc;

use image::Tables;
use image::kinds::*;

use crate::meaning::value::{Value, Values};
use crate::rng::Rng;

/// The kinds of elements, as docs/BODY.md numbers them.
const DEREF_ELEMENT: u16 = 0;
const FIELD: u16 = 1;
const INDEX: u16 = 2;
const INDEX_FROM_END: u16 = 3;

/// An element, and the type that it is of.
#[derive(Debug, Clone, Copy)]
struct Step {
    kind: u16,
    number: u16,
    of: u16,
}

/// The elements from the root on, and the root's type.
#[derive(Debug, Clone)]
pub struct Way {
    pub root_type: u16,
    steps: Vec<Step>,
}

impl Way {
    /// The root itself.
    pub fn none(type_: u16) -> Way {
        Way { root_type: type_, steps: Vec::new() }
    }

    /// A way of a few elements to a place of a type, through new types.
    pub fn to(m: &mut Tables, rng: &mut Rng, type_: u16) -> Way {
        let mut way = Way::none(type_);
        for _ in 0..rng.between(1, 3) {
            let step = around(m, rng, way.root_type);
            way.root_type = step.of;
            way.steps.insert(0, step);
        }
        way
    }

    pub fn is_empty(&self) -> bool {
        self.steps.is_empty()
    }

    /// Each element as kind, a and b.
    pub fn elements(&self) -> Vec<[u16; 3]> {
        self.steps.iter().map(|step| [step.kind, step.number, 0]).collect()
    }

    /// The value of the root whose part this value is.
    pub fn whole(&self, values: &mut Values<'_>, part: Value) -> Option<Value> {
        self.steps.iter().rev().try_fold(part, |part, step| step.around(values, part))
    }

    /// The place as an expression, from an expression of the root on.
    pub fn expression(&self, root: &str) -> String {
        self.steps.iter().fold(root.to_owned(), |text, step| match step.kind {
            DEREF_ELEMENT => format!("(*{text})"),
            FIELD => format!("{text}.{}", step.number),
            INDEX => format!("{text}[{}]", step.number),
            _ => format!("{text}[{text}.len() - {}]", step.number + 1),
        })
    }
}

/// A new type that has this one in it.
fn around(m: &mut Tables, rng: &mut Rng, type_: u16) -> Step {
    if [STR, SLICE_TYPE].contains(&m.types[usize::from(type_)][0]) {
        return Step { kind: DEREF_ELEMENT, number: 0, of: m.add_type(REFERENCE, type_, 0, 0, 1) };
    }
    let number = rng.row(3);
    let mut fields = vec![type_; 3];
    fields[usize::from(rng.row(3))] = 0;
    fields[usize::from(number)] = type_;
    match rng.below(5) {
        0 => Step { kind: DEREF_ELEMENT, number: 0, of: m.add_type(REFERENCE, type_, 0, 0, 1) },
        1 => Step { kind: FIELD, number, of: m.add_tuple_type(&fields) },
        2 => {
            let variant = m.add_variant(&fields, 0);
            Step { kind: FIELD, number, of: m.add_adt(STRUCT, variant, 1) }
        }
        3 => Step { kind: rng.pick(&[INDEX, INDEX_FROM_END]), number, of: m.add_type(ARRAY, type_, 3, 0, 1) },
        _ => Step {
            kind: rng.pick(&[INDEX, INDEX_FROM_END]),
            number,
            of: m.add_type(SLICE_TYPE, type_, 0, 0, 0),
        },
    }
}

impl Step {
    /// A value of the type around a part; what else is in it is made by chance.
    fn around(&self, values: &mut Values<'_>, part: Value) -> Option<Value> {
        let [kind, a, b, _, _] = values.m.types[usize::from(self.of)];
        let at = usize::from(self.number);
        let types = match kind {
            REFERENCE => return Some(Value::Ref(Rc::new(part))),
            TUPLE_TYPE => values.m.words(a, b.into()).to_vec(),
            ADT => {
                let [first, count, _] = values.m.variants[usize::from(a)];
                values.m.words(first, count.into()).to_vec()
            }
            _ => vec![a; 3],
        };
        let mut items: Vec<Value> = types.iter().map(|&type_| values.any(type_)).collect::<Option<_>>()?;
        let at = if self.kind == INDEX_FROM_END { items.len() - 1 - at } else { at };
        items[at] = part;
        Some(if kind == ADT { Value::Variant(a, items) } else { Value::Row(items) })
    }
}
