//! Brings a fitting tree into a form that Rust source can say, for a pattern and a place of the
//! same types: what is a deref in the image is a match of a non-reference pattern on a reference
//! in the source, so only such patterns keep their derefs, and the binding modes below follow.

use image::Tables;
use image::kinds::*;

use crate::generate::scalars::bounds;
use crate::meaning::value::{number, scalar};
use crate::tree::{Kind, Node, Operand};

pub struct Form<'a> {
    pub m: &'a mut Tables,
}

impl Form<'_> {
    fn row(&self, type_: u16) -> [u16; 5] {
        self.m.types[usize::from(type_)]
    }

    fn unsized_type(&self, type_: u16) -> bool {
        [STR, SLICE_TYPE].contains(&self.row(type_)[0])
    }

    /// The form of a pattern for a place of a type. `by_ref`: the default binding mode is `ref`.
    pub fn node(&mut self, node: &Node, place_type: u16, by_ref: bool) -> Node {
        let mut node = node.clone();
        if !matched_on_a_reference(&node) {
            push_derefs_down(&mut node, place_type, self.m);
        }
        let by_ref = by_ref || node.derefs > 0;
        self.kind(&mut node, by_ref);
        node
    }

    fn kind(&mut self, node: &mut Node, by_ref: bool) {
        let type_ = node.type_;
        let [_, a, b, _, _] = self.row(type_);
        match &mut node.kind {
            Kind::Tuple { args, ellipsis } => {
                let types = self.m.words(a, b.into()).to_vec();
                self.arguments(args, *ellipsis, &types, by_ref);
            }
            Kind::TupleStruct { args, ellipsis, variant } => {
                let types = self.fields(*variant);
                self.arguments(args, *ellipsis, &types, by_ref);
            }
            Kind::Record { fields, variant } => self.record(fields, *variant, by_ref),
            Kind::Or(items) => {
                items.iter_mut().for_each(|item| *item = self.node(item, type_, by_ref));
            }
            Kind::Bind { binding, sub, mode, .. } => {
                *mode = self.mode(*mode, type_, by_ref);
                self.m.bindings[usize::from(*binding)][0] = type_;
                if let Some(sub) = sub {
                    **sub = self.node(sub, type_, by_ref);
                }
            }
            Kind::Ref(inner) => **inner = self.node(inner, a, false),
            Kind::Slice { prefix, rest, suffix } => {
                for item in prefix.iter_mut().chain(suffix) {
                    *item = self.node(item, a, by_ref);
                }
                if let Some(Node { kind: Kind::Bind { mode, .. }, .. }) = rest.as_deref_mut() {
                    *mode = self.mode(*mode, type_, by_ref);
                }
            }
            Kind::Range { start, end, half_open } => self.range(type_, start, end, half_open),
            _ => {}
        }
    }

    fn fields(&self, variant: u16) -> Vec<u16> {
        let [first, count, _] = self.m.variants[usize::from(variant)];
        self.m.words(first, count.into()).to_vec()
    }

    fn record(&mut self, fields: &mut [(u16, Node)], variant: u16, by_ref: bool) {
        let types = self.fields(variant);
        for (field, item) in fields {
            *item = self.node(item, types[usize::from(*field)], by_ref);
        }
    }

    fn arguments(&mut self, args: &mut [Node], ellipsis: Option<u16>, types: &[u16], by_ref: bool) {
        let front = ellipsis.map_or(args.len(), usize::from);
        let count = args.len();
        for (number, item) in args.iter_mut().enumerate() {
            let field = if number < front { number } else { types.len() - count + number };
            *item = self.node(item, types[field], by_ref);
        }
    }

    fn mode(&self, mode: u16, type_: u16, by_ref: bool) -> u16 {
        if by_ref || self.unsized_type(type_) { BY_REF } else { mode.min(BY_REF) }
    }

    /// A range that the compiler takes is not empty.
    fn range(
        &self,
        type_: u16,
        start: &mut Option<Operand>,
        end: &mut Option<Operand>,
        half_open: &mut bool,
    ) {
        let [kind, size, signed, _, _] = self.row(type_);
        let value = |end: &Operand| match kind {
            CHAR => i128::from(u32::from(scalar(&end.bytes))),
            _ => number(&end.bytes[..usize::from(size)], signed == 1),
        };
        let least = if kind == CHAR { 0 } else { bounds(size, signed == 1).0 };
        let Some(last) = end.as_ref().map(value) else { return };
        let first = start.as_ref().map_or(least, value);
        if first > last {
            std::mem::swap(start, end);
        }
        if first == last {
            *half_open = false;
        }
    }
}

/// The source matches the pattern on a reference to what it is for. Constants and strings are
/// not among these.
fn matched_on_a_reference(node: &Node) -> bool {
    match &node.kind {
        Kind::Or(_) | Kind::Bind { .. } | Kind::Bare(_) | Kind::Ref(_) | Kind::Constant(_) => false,
        Kind::Lit(operand) => operand.kind != STRING,
        _ => true,
    }
}

/// Moves the derefs of a pattern that the source cannot match on a reference to those below, or
/// writes them as `&`.
fn push_derefs_down(node: &mut Node, place_type: u16, m: &Tables) {
    let derefs = std::mem::take(&mut node.derefs);
    if derefs == 0 {
        return;
    }
    node.type_ = place_type;
    match &mut node.kind {
        Kind::Or(items) => items.iter_mut().for_each(|item| item.derefs += derefs),
        Kind::Bind { sub: Some(sub), .. } => sub.derefs += derefs,
        Kind::Ref(_) | Kind::Constant(_) | Kind::Lit(_) => {
            let behind = m.types[usize::from(place_type)][1];
            let mut inner = Node { derefs: derefs - 1, ..node.clone() };
            push_derefs_down(&mut inner, behind, m);
            inner.type_ = behind;
            node.kind = Kind::Ref(Box::new(inner));
        }
        _ => {}
    }
}
