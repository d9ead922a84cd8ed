//! All patterns of up to a number of nodes over a handful of types: u8, a pair of u8, an enum of a
//! variant without and one with a field, a struct, &u8, [u8] and [u8; 2]. A node's type is its
//! place's; a kind that does not go with its place's type stands with no children or a wildcard.

use std::collections::HashMap;
use std::rc::Rc;

use image::kinds::*;
use image::{ABSENT, Tables};

use crate::tree::{Kind, Node, Operand};

const U8: u16 = 0;
const PAIR: u16 = 1;
const ENUMERATION: u16 = 2;
const STRUCTURE: u16 = 3;
const REFERENCE_TO_U8: u16 = 4;
const SLICE_OF_U8: u16 = 5;
const ARRAY_OF_U8: u16 = 6;
const TYPES: u16 = 7;

const UNIT_VARIANT: u16 = 0;
const FIELD_VARIANT: u16 = 1;
const STRUCT_VARIANT: u16 = 2;

/// The tables of types, variants and one binding.
fn world() -> Tables {
    let mut m = Tables::default();
    m.add_integer_type(1, 0);
    m.add_tuple_type(&[U8, U8]);
    m.add_variant(&[], 0);
    m.add_variant(&[U8], 1);
    m.add_variant(&[U8], 0);
    m.add_adt(ENUM, UNIT_VARIANT, 2);
    m.add_adt(STRUCT, STRUCT_VARIANT, 1);
    m.add_type(REFERENCE, U8, 0, 0, 1);
    m.add_type(SLICE_TYPE, U8, 0, 0, 0);
    m.add_type(ARRAY, U8, 2, 0, 1);
    m.add_binding(U8, 1);
    m
}

/// All images of patterns with exactly so many nodes, one after the other.
pub fn images(nodes: usize) -> impl Iterator<Item = Vec<u8>> {
    let mut patterns = Patterns::default();
    let all: Vec<Rc<Vec<Node>>> = (0..TYPES).map(|type_| patterns.of(type_, nodes)).collect();
    all.into_iter().flat_map(|trees| {
        (0..trees.len()).map(move |number| {
            let mut m = world();
            trees[number].put(&mut m);
            m.encode()
        })
    })
}

/// The patterns for each type and number of nodes, as far as they were asked for.
#[derive(Default)]
struct Patterns {
    known: HashMap<(u16, usize), Rc<Vec<Node>>>,
}

impl Patterns {
    fn of(&mut self, type_: u16, nodes: usize) -> Rc<Vec<Node>> {
        if let Some(known) = self.known.get(&(type_, nodes)) {
            return known.clone();
        }
        let mut kinds = match nodes {
            1 => leaves(type_),
            _ => Vec::new(),
        };
        if nodes > 1 {
            self.with_children(type_, nodes - 1, &mut kinds);
        }
        let mut found: Vec<Node> = kinds.into_iter().map(|kind| Node { type_, derefs: 0, kind }).collect();
        if type_ == REFERENCE_TO_U8 {
            let behind = self.of(U8, nodes);
            found.extend(behind.iter().map(|node| Node { derefs: 1, ..node.clone() }));
        }
        let found = Rc::new(found);
        self.known.insert((type_, nodes), found.clone());
        found
    }

    /// All sequences of so many patterns for a type, with so many nodes together.
    fn sequences(&mut self, type_: u16, count: usize, nodes: usize) -> Vec<Vec<Node>> {
        if count == 0 {
            return if nodes == 0 { vec![Vec::new()] } else { Vec::new() };
        }
        let mut found = Vec::new();
        for first in 1..=nodes {
            let firsts = self.of(type_, first);
            for rest in self.sequences(type_, count - 1, nodes - first) {
                found.extend(firsts.iter().map(|node| {
                    let mut items = vec![node.clone()];
                    items.extend(rest.iter().cloned());
                    items
                }));
            }
        }
        found
    }

    /// The kinds that hold patterns of so many nodes together, one at least.
    fn with_children(&mut self, type_: u16, nodes: usize, kinds: &mut Vec<Kind>) {
        for sub in self.of(type_, nodes).iter() {
            let sub = Some(Box::new(sub.clone()));
            kinds.push(Kind::Bind { binding: 0, sub, mode: BY_VALUE, annotation: 0 });
        }
        for count in 1..=nodes {
            kinds.extend(self.sequences(type_, count, nodes).into_iter().map(Kind::Or));
        }
        match type_ {
            PAIR => self.arguments(nodes, 3, kinds, |args, ellipsis| Kind::Tuple { args, ellipsis }),
            ENUMERATION => self.variant(FIELD_VARIANT, nodes, kinds),
            STRUCTURE => self.variant(STRUCT_VARIANT, nodes, kinds),
            REFERENCE_TO_U8 => {
                let inner = self.of(U8, nodes);
                kinds.extend(inner.iter().map(|node| Kind::Ref(Box::new(node.clone()))));
            }
            SLICE_OF_U8 | ARRAY_OF_U8 => self.slices(type_, nodes, kinds),
            _ if nodes == 1 => kinds.push(Kind::Ref(Box::new(Node::wild(U8)))),
            _ => {}
        }
    }

    /// Up to so many arguments, with no ellipsis and with one at every place and one past.
    fn arguments(
        &mut self,
        nodes: usize,
        most: usize,
        kinds: &mut Vec<Kind>,
        kind: impl Fn(Vec<Node>, Option<u16>) -> Kind,
    ) {
        for count in 1..=most.min(nodes) {
            for args in self.sequences(U8, count, nodes) {
                kinds.push(kind(args.clone(), None));
                for ellipsis in 0..=count as u16 {
                    kinds.push(kind(args.clone(), Some(ellipsis)));
                }
            }
        }
    }

    fn variant(&mut self, variant: u16, nodes: usize, kinds: &mut Vec<Kind>) {
        self.arguments(nodes, 2, kinds, |args, ellipsis| Kind::TupleStruct { args, ellipsis, variant });
        for count in 1..=2.min(nodes) {
            for args in self.sequences(U8, count, nodes) {
                let fields = args.into_iter().map(|item| (0, item)).collect();
                kinds.push(Kind::Record { fields, variant });
            }
        }
    }

    fn slices(&mut self, type_: u16, nodes: usize, kinds: &mut Vec<Kind>) {
        for (rest_nodes, rest) in rests(type_) {
            let Some(left) = nodes.checked_sub(rest_nodes) else { continue };
            for count in 0..=left {
                for items in self.sequences(U8, count, left) {
                    for split in 0..=count {
                        let (prefix, suffix) = items.split_at(split);
                        kinds.push(Kind::Slice {
                            prefix: prefix.to_vec(),
                            rest: rest.clone(),
                            suffix: suffix.to_vec(),
                        });
                    }
                }
            }
        }
    }
}

/// No rest, `..`, `x` and `x @ ..`, each with its number of nodes.
fn rests(type_: u16) -> [(usize, Option<Box<Node>>); 4] {
    let node = |kind: Kind| Some(Box::new(Node { type_, derefs: 0, kind }));
    let bind = |sub: Option<Box<Node>>| Kind::Bind { binding: 0, sub, mode: BY_REF, annotation: 0 };
    let rest = node(Kind::Bare(REST));
    [(0, None), (1, rest.clone()), (1, node(bind(None))), (2, node(bind(rest)))]
}

/// The kinds without children: of every type, and then of one type.
fn leaves(type_: u16) -> Vec<Kind> {
    let number = |value: i128| Operand::integer(UINT, value);
    let mut kinds = vec![
        Kind::Bare(WILD),
        Kind::Bare(MISSING),
        Kind::Bare(EXPR),
        Kind::Bare(BOX),
        Kind::Or(Vec::new()),
        Kind::Path(UNRESOLVED, 0),
        Kind::Path(NAMES_VARIANT, FIELD_VARIANT),
        Kind::Bind { binding: 0, sub: None, mode: BY_VALUE, annotation: 0 },
        Kind::Tuple { args: Vec::new(), ellipsis: None },
        Kind::Lit(number(7)),
    ];
    match type_ {
        U8 => {
            for half_open in [false, true] {
                kinds.push(Kind::Range { start: Some(number(1)), end: Some(number(3)), half_open });
            }
            kinds.push(Kind::Range { start: Some(number(1)), end: None, half_open: true });
            kinds.push(Kind::Constant(Operand { kind: CONSTANT, bytes: vec![5] }));
        }
        ENUMERATION => {
            kinds.push(Kind::Path(NAMES_VARIANT, UNIT_VARIANT));
            kinds.push(Kind::Path(NAMES_VARIANT, STRUCT_VARIANT));
            kinds.push(Kind::Record { fields: Vec::new(), variant: ABSENT });
        }
        SLICE_OF_U8 | ARRAY_OF_U8 => {
            kinds.push(Kind::Slice { prefix: Vec::new(), rest: None, suffix: Vec::new() });
            kinds.push(Kind::Constant(Operand { kind: CONSTANT, bytes: vec![5] }));
        }
        PAIR => kinds.push(Kind::Tuple { args: Vec::new(), ellipsis: Some(1) }),
        _ => {}
    }
    kinds
}
