//! Values: finite trees of the types of an image, made by chance or to match a pattern.

use std::rc::Rc;

use image::Tables;
use image::kinds::*;

use crate::generate::scalars::bounds;
use crate::rng::Rng;
use crate::tree::{Kind, Node, Operand};

#[derive(Debug, Clone, PartialEq)]
pub enum Value {
    /// An integer's bytes, cut to its size, and whether it is signed.
    Integer(Vec<u8>, bool),
    Bool(bool),
    Char(char),
    Str(String),
    /// The fields of a tuple, or the elements of an array or slice.
    Row(Vec<Value>),
    /// A variant's number in the image, and its fields.
    Variant(u16, Vec<Value>),
    Ref(Rc<Value>),
}

pub fn integer(value: i128, size: u16, signed: bool) -> Value {
    Value::Integer(value.to_le_bytes()[..usize::from(size)].to_vec(), signed)
}

/// The number that an integer's bytes stand for; of 16 unsigned ones they are below 2^127.
pub fn number(bytes: &[u8], signed: bool) -> i128 {
    let negative = signed && bytes.last().is_some_and(|&byte| byte >= 128);
    let mut wide = [if negative { 255 } else { 0 }; 16];
    wide[..bytes.len()].copy_from_slice(bytes);
    i128::from_le_bytes(wide)
}

pub struct Values<'a> {
    pub m: &'a Tables,
    pub rng: &'a mut Rng,
    /// So many times in a hundred a part of a value is made to match its pattern.
    pub matching: usize,
}

impl Values<'_> {
    fn row(&self, type_: u16) -> [u16; 5] {
        self.m.types[usize::from(type_)]
    }

    fn fields(&self, variant: u16) -> Vec<u16> {
        let [first, count, _] = self.m.variants[usize::from(variant)];
        self.m.words(first, count.into()).to_vec()
    }

    fn all(&mut self, types: &[u16]) -> Option<Vec<Value>> {
        types.iter().map(|&type_| self.any(type_)).collect()
    }

    /// Any value of a type; none if there is a union in it.
    pub fn any(&mut self, type_: u16) -> Option<Value> {
        let [kind, a, b, c, _] = self.row(type_);
        Some(match kind {
            INTEGER => {
                let (least, greatest) = bounds(a, b == 1);
                let near = self.rng.below(5) as i128;
                let value = match self.rng.below(4) {
                    0 => least + near,
                    1 => greatest - near,
                    _ => near,
                };
                integer(value, a, b == 1)
            }
            BOOL => Value::Bool(self.rng.percent(50)),
            CHAR => Value::Char(self.rng.pick(&['\0', 'a', 'b', 'z', '\u{10FFFF}'])),
            STR => Value::Str(self.rng.pick(&["", "DNF", "RET", "OCS", "DNC"]).to_owned()),
            TUPLE_TYPE => {
                let types = self.m.words(a, b.into()).to_vec();
                Value::Row(self.all(&types)?)
            }
            ADT if c == UNION => return None,
            ADT => {
                let variant = a + self.rng.row(b.into());
                let types = self.fields(variant);
                Value::Variant(variant, self.all(&types)?)
            }
            REFERENCE => Value::Ref(Rc::new(self.any(a)?)),
            ARRAY => Value::Row(self.all(&vec![a; b.into()])?),
            _ => {
                let length = self.rng.below(5);
                Value::Row(self.all(&vec![a; length])?)
            }
        })
    }

    /// A value for a place of a type that a pattern likely matches.
    pub fn for_pattern(&mut self, node: &Node, place_type: u16) -> Option<Value> {
        if !self.rng.percent(self.matching) {
            return self.any(place_type);
        }
        let mut type_ = place_type;
        for _ in 0..node.derefs {
            type_ = self.row(type_)[1];
        }
        let mut value = self.of_kind(node, type_)?;
        for _ in 0..node.derefs {
            value = Value::Ref(Rc::new(value));
        }
        Some(value)
    }

    fn of_kind(&mut self, node: &Node, type_: u16) -> Option<Value> {
        let [_, a, b, _, _] = self.row(type_);
        match &node.kind {
            Kind::Tuple { args, ellipsis } => {
                let types = self.m.words(a, b.into()).to_vec();
                Some(Value::Row(self.arguments(args, *ellipsis, &types)?))
            }
            Kind::TupleStruct { args, ellipsis, variant } => {
                let types = self.fields(*variant);
                Some(Value::Variant(*variant, self.arguments(args, *ellipsis, &types)?))
            }
            Kind::Record { fields, variant } => {
                let types = self.fields(*variant);
                let mut found = self.all(&types)?;
                for (field, item) in fields {
                    let field = usize::from(*field);
                    found[field] = self.for_pattern(item, types[field])?;
                }
                Some(Value::Variant(*variant, found))
            }
            Kind::Path(NAMES_VARIANT, variant) => {
                let types = self.fields(*variant);
                Some(Value::Variant(*variant, self.all(&types)?))
            }
            Kind::Or(items) => {
                let item = self.rng.below(items.len());
                self.for_pattern(&items[item], type_)
            }
            Kind::Bind { sub: Some(sub), .. } => self.for_pattern(sub, type_),
            Kind::Ref(inner) => Some(Value::Ref(Rc::new(self.for_pattern(inner, a)?))),
            Kind::Slice { prefix, rest, suffix } => self.slice(type_, prefix, rest.is_some(), suffix),
            Kind::Lit(operand) | Kind::Constant(operand) => Some(self.of_operand(operand, type_)),
            Kind::Range { start, end, .. } => {
                let ends: Vec<&Operand> = start.iter().chain(end).collect();
                let end = ends[self.rng.below(ends.len())];
                Some(self.near(end, type_))
            }
            _ => self.any(type_),
        }
    }

    fn arguments(&mut self, args: &[Node], ellipsis: Option<u16>, types: &[u16]) -> Option<Vec<Value>> {
        let mut found = self.all(types)?;
        let front = ellipsis.map_or(args.len(), usize::from);
        for (number, item) in args.iter().enumerate() {
            let field = if number < front { number } else { types.len() - args.len() + number };
            found[field] = self.for_pattern(item, types[field])?;
        }
        Some(found)
    }

    fn slice(&mut self, type_: u16, prefix: &[Node], rest: bool, suffix: &[Node]) -> Option<Value> {
        let [kind, element, length, _, _] = self.row(type_);
        let least = prefix.len() + suffix.len();
        let length = match (kind, rest) {
            (ARRAY, _) => usize::from(length),
            (_, true) => least + self.rng.below(3),
            _ => least,
        };
        let mut found = self.all(&vec![element; length])?;
        for (number, item) in prefix.iter().enumerate() {
            found[number] = self.for_pattern(item, element)?;
        }
        for (number, item) in suffix.iter().enumerate() {
            found[length - suffix.len() + number] = self.for_pattern(item, element)?;
        }
        Some(Value::Row(found))
    }

    fn of_operand(&mut self, operand: &Operand, type_: u16) -> Value {
        let [kind, size, signed, _, _] = self.row(type_);
        match kind {
            BOOL => Value::Bool(operand.bytes[0] == 1),
            CHAR => Value::Char(scalar(&operand.bytes)),
            INTEGER => Value::Integer(operand.bytes[..usize::from(size)].to_vec(), signed == 1),
            _ => {
                let text = String::from_utf8_lossy(&operand.bytes).into_owned();
                Value::Ref(Rc::new(Value::Str(text)))
            }
        }
    }

    /// The value of a range's end, or one beside it.
    fn near(&mut self, end: &Operand, type_: u16) -> Value {
        let step = self.rng.below(3) as i128 - 1;
        match self.of_operand(end, type_) {
            Value::Integer(bytes, signed) => {
                let size = bytes.len() as u16;
                let (least, greatest) = bounds(size, signed);
                let value = number(&bytes, signed).saturating_add(step).clamp(least, greatest);
                integer(value, size, signed)
            }
            Value::Char(found) => {
                let value = i128::from(u32::from(found)) + step;
                Value::Char(u32::try_from(value).ok().and_then(char::from_u32).unwrap_or(found))
            }
            other => other,
        }
    }
}

pub fn scalar(bytes: &[u8]) -> char {
    let number = u32::from_le_bytes(bytes.try_into().expect("four bytes"));
    char::from_u32(number).expect("a scalar value")
}
